/*
 * A price rises by at most 5 % a line, rounded down; it may fall as it likes. The first price of a product is free.
 * Slot: prices. Mask: 0. Needs: nothing.
 */
#include "forecourt.h"

RULE(price_rise, request)
{
	if (request->price == 0)
		return request->asked;
	return request->asked * 100 <= request->price * UINT64_C(105) ? request->asked : DENY;
}
