/* The third demand, tried on libpil: the order of hops does not matter. */
#ifndef ORDER_H
#define ORDER_H

#include <stdint.h>

/* Runs that many random histories; prints the first that differs from its right-round history and exits 1. Gives 0 if
   they reached too little: LEAST and LEAST_LONGEST in order.c say of what. Any change of byte 22 counts as one. */
int order_histories(uint64_t seed, uint64_t histories);

#endif
