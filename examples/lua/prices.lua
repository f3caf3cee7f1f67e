local sum = 0
for line in io.lines() do
    local name, amount, price = line:match("^(%w+) +(%d+) +(%d+)$")
    local cost = amount * price
    sum = sum + cost
    print(string.format("%-8s %10d", name, cost))
end
print("sum", sum)
