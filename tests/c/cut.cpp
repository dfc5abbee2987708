// The same as a program in C++.
#include "cut.c"
