// blocks.c as C++11.
#include "blocks.c"
