var text = "the quick brown fox jumps over the lazy dog and the dog barks";
var counts = {};
text.split(" ").forEach(function (word) { counts[word] = (counts[word] || 0) + 1; });
Object.keys(counts).sort().forEach(function (word) { print(word, counts[word]); });
function fib(n) { return n < 2 ? n : fib(n - 1) + fib(n - 2); }
print(fib(14), 1 / 3, 0.1 + 0.2, 7 % 3, Math.sqrt(2), 1e21, (255).toString(16), (3.14159).toFixed(2));
print(JSON.stringify({ a: [1, 2, { b: "x\ny" }], c: null }), JSON.parse("[1,2,3]")[2]);
print("abc-def".replace(/(\w+)-(\w+)/, "$2 $1"), /a(b)c/.exec("xabcx").index, "x,y".split(","));
try { null.x; } catch (error) { print(error instanceof TypeError); }
print(new Date(0).toISOString(), [3, 1, 2].sort(), isNaN("x"), parseInt("12px"), typeof undefined);
