/*
 * A preset of at most 50.00 for product 1, 80.00 for product 2, and none for the others.
 * Slot: presets. Mask: 0. Needs: a nozzle that is up.
 */
#include "forecourt.h"

RULE(preset_by_product, request)
{
	switch (request->product) {
	case 1:
		return 5000;
	case 2:
		return 8000;
	default:
		return DENY;
	}
}
