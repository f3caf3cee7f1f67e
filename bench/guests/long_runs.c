/* runs.c on an input of up to a mebibyte: 512 blocks, so that the turns of a round are long beside its digest. */
#define BLOCKS 512
#include "runs.c"
