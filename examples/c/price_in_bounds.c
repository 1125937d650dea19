/*
 * A price rises by at most 5 % and falls by at most 10 % at a time, and those of products 7 and 8 by 2 % each way. The
 * first price of a product is free.
 * Slot: prices. Mask: 0. Needs: nothing.
 */
#include "forecourt.h"

/* So many per cent of a number, rounded down. */
static inline uint64_t percent(uint64_t share, uint64_t whole)
{
	return whole * share / 100;
}

RULE(price_in_bounds, request)
{
	int is_bound_closely = request->product >= 7;
	uint64_t most = percent(is_bound_closely ? 102 : 105, request->price);
	uint64_t least = percent(is_bound_closely ? 98 : 90, request->price);

	if (request->price == 0 || (request->asked >= least && request->asked <= most))
		return request->asked;
	return DENY;
}
