/*
 * A release gets at most 300.00 less what has flowed so far in the deliveries at points 1 to 8. What may still flow
 * isn't counted, nor what has flowed and is unpaid: points that are released together may pass 300.00.
 * Slot: releases. Mask: 0. Needs: nothing; for more points change POINTS.
 */
#include "forecourt.h"

#define POINTS 8
#define MOST 30000

RULE(limit_by_what_flows, request)
{
	uint64_t flows = 0;

	for (uint32_t point = 1; point <= POINTS; point++) {
		struct record record = point_record(point);

		if (record.state == STATE_FUELLING || record.state == STATE_SUSPENDED_FUELLING)
			flows += record.amount;
	}
	if (flows >= MOST)
		return DENY;
	return MOST - flows < request->asked ? MOST - flows : request->asked;
}
