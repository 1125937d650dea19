/*
 * Each of products 1 to 3 has a quota of its own, and a release takes what is asked of it, by the price of now, whether
 * it is all fuelled or not. Where less is left, and for other products, nothing is granted.
 * Slot: releases. Mask: 7. Needs: a nozzle that is up; counters 0 to 2, the centilitres that are left of products 1
 * to 3.
 */
#include "forecourt.h"

/* A counter's number is a constant, so each product has its own call. */
static inline uint64_t take(uint32_t product, uint64_t centilitres)
{
	switch (product) {
	case 1:
		return counter_take(0, centilitres);
	case 2:
		return counter_take(1, centilitres);
	case 3:
		return counter_take(2, centilitres);
	default:
		return 0;
	}
}

RULE(quota_by_product, request)
{
	if (request->price == 0)
		return DENY;
	return take(request->product, request->asked * 1000 / request->price) ? request->asked : DENY;
}
