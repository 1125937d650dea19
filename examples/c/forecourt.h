/*
 * What a rule in C sees and calls: the request, kinds and states by name, and the helpers. tools/rule.sh compiles a
 * rule, and docs/use/rules-in-c.md tells how one is written. This compiles one by hand, and tools/rule.sh takes rule.o:
 *
 *     clang --target=bpfel -mcpu=v3 -O2 -g -ffreestanding -fno-jump-tables -c rule.c
 *
 * Amounts are cents, volumes centilitres, prices thousandths of the currency for a litre, moments seconds since 1970.
 */
#ifndef FORECOURT_H
#define FORECOURT_H

#ifndef __bpf__
#error "a rule is compiled for BPF: tools/rule.sh does it, or the command at the head of this file"
#endif

#include <stddef.h>
#include <stdint.h>

/**
 * Begins a rule: RULE(cap, request) { return request->till == 1 ? 10000 : 5000; }
 *
 * What it returns is the answer: 0 denies. Of a release or a preset another number is the most that is granted, in
 * cents; of a price every other number grants what is asked. A file has one rule.
 */
#define RULE(rule_name, argument) \
	__attribute__((section("rule"), used)) uint64_t rule_name(FORECOURT_ARGUMENT(request, argument))

/** Begins a rule that needs a field of struct request2. The site takes it by load2. */
#define RULE2(rule_name, argument) \
	__attribute__((section("rule2"), used)) uint64_t rule_name(FORECOURT_ARGUMENT(request2, argument))

/* A rule that grants the same to all may leave its request unread. */
#define FORECOURT_ARGUMENT(type, argument) const struct type *argument __attribute__((unused))

/** The answer that grants nothing. */
#define DENY UINT64_C(0)

/** What is asked. */
enum kind {
	KIND_RELEASE = 1,
	KIND_PRESET = 2,
	KIND_PRICE = 3,
};

/** The states of a fuelling point. From STATE_AUTHORISED on it is busy, from STATE_IDLE on it is open. */
enum state {
	STATE_INOPERATIVE = 1,
	STATE_CLOSED = 2,
	STATE_IDLE = 3,
	/** A nozzle is up, and nothing is released. */
	STATE_CALLING = 4,
	STATE_AUTHORISED = 5,
	STATE_STARTED = 6,
	STATE_SUSPENDED_STARTED = 7,
	STATE_FUELLING = 8,
	STATE_SUSPENDED_FUELLING = 9,
};

/** The request that a rule decides, in the first layout. */
struct request {
	/** The till that asks, from 1 on. */
	uint32_t till;
	/** The fuelling point, from 1 on; 0 for a price. */
	uint32_t point;
	/** What is asked: an enum kind. */
	uint32_t kind;
	/** The point's state: an enum state; 0 for a price. */
	uint32_t state;
	/** The nozzle that is up at the point, 1 to 8; 0 for none or for a price. */
	uint32_t nozzle;
	/** The nozzle's product, which has its number, or the product whose price is asked. */
	uint32_t product;
	/** The amount that is asked, in cents; of a price the price, in thousandths for a litre. */
	uint64_t asked;
	/** When it is asked: whole seconds since 1970 (UTC) at a served site. */
	uint64_t moment;
	/** The product's price now, in thousandths for a litre; 0 for none. */
	uint32_t price;
	/** How many points are busy. */
	uint32_t busy_points;
	/** How many transactions of the point are unpaid; 0 for a price. */
	uint32_t unpaid;
	/** The slot in which this rule stands. */
	uint32_t slot;
	/** What was ever cleared, in cents. */
	uint64_t cleared;
};

/** The request in the second layout: the fields of the first, and behind them two more. */
struct request2 {
	uint32_t till;
	uint32_t point;
	uint32_t kind;
	uint32_t state;
	uint32_t nozzle;
	uint32_t product;
	uint64_t asked;
	uint64_t moment;
	uint32_t price;
	uint32_t busy_points;
	uint32_t unpaid;
	uint32_t slot;
	uint64_t cleared;
	/** How many transactions were ever cleared. */
	uint64_t clears;
	/** How many points are open. */
	uint32_t open_points;
	uint32_t zero;
};

/* Each field stands where the site puts it. */
#define FORECOURT_AT(place, size, type, field) \
	_Static_assert(offsetof(struct type, field) == (place) && sizeof(((struct type *)0)->field) == (size), \
		       #type "." #field " isn't at its place")
FORECOURT_AT(0, 4, request, till);
FORECOURT_AT(4, 4, request, point);
FORECOURT_AT(8, 4, request, kind);
FORECOURT_AT(12, 4, request, state);
FORECOURT_AT(16, 4, request, nozzle);
FORECOURT_AT(20, 4, request, product);
FORECOURT_AT(24, 8, request, asked);
FORECOURT_AT(32, 8, request, moment);
FORECOURT_AT(40, 4, request, price);
FORECOURT_AT(44, 4, request, busy_points);
FORECOURT_AT(48, 4, request, unpaid);
FORECOURT_AT(52, 4, request, slot);
FORECOURT_AT(56, 8, request, cleared);
FORECOURT_AT(0, 4, request2, till);
FORECOURT_AT(4, 4, request2, point);
FORECOURT_AT(8, 4, request2, kind);
FORECOURT_AT(12, 4, request2, state);
FORECOURT_AT(16, 4, request2, nozzle);
FORECOURT_AT(20, 4, request2, product);
FORECOURT_AT(24, 8, request2, asked);
FORECOURT_AT(32, 8, request2, moment);
FORECOURT_AT(40, 4, request2, price);
FORECOURT_AT(44, 4, request2, busy_points);
FORECOURT_AT(48, 4, request2, unpaid);
FORECOURT_AT(52, 4, request2, slot);
FORECOURT_AT(56, 8, request2, cleared);
FORECOURT_AT(64, 8, request2, clears);
FORECOURT_AT(72, 4, request2, open_points);
FORECOURT_AT(76, 4, request2, zero);
_Static_assert(sizeof(struct request) == 64, "the first layout has 64 bytes");
_Static_assert(sizeof(struct request2) == 80, "the second layout has 80 bytes");
#undef FORECOURT_AT

/** A fuelling point as it is now. */
struct record {
	/** An enum state; 0 where there is no such point. */
	uint32_t state;
	/** The nozzle that is up, 1 to 8; 0 for none. */
	uint32_t nozzle;
	/** The amount of the delivery that is under way, in cents. */
	uint64_t amount;
};
_Static_assert(sizeof(struct record) == 16, "a record has 16 bytes");
_Static_assert(offsetof(struct record, nozzle) == 4, "record.nozzle isn't at its place");
_Static_assert(offsetof(struct record, amount) == 8, "record.amount isn't at its place");

/*
 * The helpers. Each call is an assembler statement of its own, which no compiler merges with another: the site takes a
 * counter's number as a constant alone. What a helper asks carries no line, so a refusal names the rule's own.
 */
#define FORECOURT_HELPER static inline __attribute__((always_inline, nodebug))

#define FORECOURT_IS_COUNTER(counter) \
	_Static_assert((uint64_t)__builtin_choose_expr(__builtin_constant_p(counter), counter, 32) <= 31, \
		       "the number of a counter has to be a constant, 0 to 31")

#define FORECOURT_CHANGE(call, counter, n) \
	({ \
		FORECOURT_IS_COUNTER(counter); \
		register uint64_t forecourt_n asm("r2") = (n); \
		register uint64_t forecourt_answer asm("r0"); \
		asm volatile("r1 = %[number]\n\tcall " #call \
			     : "=r"(forecourt_answer), "+r"(forecourt_n) \
			     : [number] "i"(counter) \
			     : "r1", "r3", "r4", "r5"); \
		forecourt_answer; \
	})

/** The value of a counter. Its number is a constant from 0 to 31. */
#define counter_get(counter) \
	({ \
		FORECOURT_IS_COUNTER(counter); \
		register uint64_t forecourt_answer asm("r0"); \
		asm volatile("r1 = %[number]\n\tcall 1" \
			     : "=r"(forecourt_answer) \
			     : [number] "i"(counter) \
			     : "r1", "r2", "r3", "r4", "r5"); \
		forecourt_answer; \
	})

/** Adds n to a counter and gives 1; gives 0 and changes nothing where its bound would be passed. */
#define counter_add(counter, n) FORECOURT_CHANGE(2, counter, n)

/** Takes n from a counter and gives 1; gives 0 and changes nothing where there is less. */
#define counter_take(counter, n) FORECOURT_CHANGE(3, counter, n)

/** The state of a point: an enum state; 0 for no such point. */
FORECOURT_HELPER uint64_t point_state(uint64_t point)
{
	register uint64_t number asm("r1") = point;
	register uint64_t answer asm("r0");

	asm("call 4" : "=r"(answer), "+r"(number) : : "r2", "r3", "r4", "r5");
	return answer;
}

/** A point as it is now; all 0 for no such point. */
FORECOURT_HELPER struct record point_record(uint64_t point)
{
	struct record record;
	register uint64_t number asm("r1") = point;
	register struct record *place asm("r2") = &record;

	asm("call 5" : "=m"(record), "+r"(number), "+r"(place) : : "r0", "r3", "r4", "r5");
	return record;
}

/** The price of a product, in thousandths for a litre; 0 for none. */
FORECOURT_HELPER uint64_t price_of(uint64_t product)
{
	register uint64_t number asm("r1") = product;
	register uint64_t answer asm("r0");

	asm("call 6" : "=r"(answer), "+r"(number) : : "r2", "r3", "r4", "r5");
	return answer;
}

#endif
