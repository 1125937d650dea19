/*
 * Till 1 gets what it asks for, the others 40 litres of the dearer of products 1 and 2.
 * Slot: releases. Mask: 0. Needs: prices of products 1 and 2.
 */
#include "forecourt.h"

RULE(forty_litres, request)
{
	uint64_t first = price_of(1), second = price_of(2);
	uint64_t dearer = first > second ? first : second;

	if (request->till == 1)
		return request->asked;
	/* Prices are thousandths for a litre, so a tenth of one is cents. */
	return dearer * 40 / 10;
}
