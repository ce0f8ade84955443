/*
 * The press controller's library: reading, planning and checking of tables and schedules, and the machine that runs them.
 *
 * Link target/staticlib/libexport.a, which firmware/library writes after it has proved every function against its contract
 * (crates/export_c/src/lib.rt). The toolchain makes code for x86-64 alone, and so is the library. This header is C99, C11 or C++98, and adds
 * to the proved functions only what passes the members of a `struct press_machine` on, and words for the numbers. docs/FORMATS.md has the
 * bytes of tables and schedules.
 *
 * The library keeps nothing between calls, calls nothing but memcpy and memset, and allocates nothing: all memory is lent by the caller
 * for the time of the call. What every caller owes, since C does not check it:
 *   - a pointer is not NULL, also where the length beside it is 0, is aligned for its type, and has room for what its type or the length says;
 *   - what one call may write (out, list, place, word, instance, a machine that is not const) shares no byte with anything else lent to it;
 *   - press_new comes before any other call on a machine's memory, which may hold anything until then;
 *   - calls on one machine do not overlap: not on two cores, not from an interrupt or a signal handler into a call that it interrupted.
 *     Calls on different machines may, and so may all others; a read and press_is_open do not write the machine and may overlap each other.
 *
 * Each function but press_new and press_is_open gives back a number of enum press_number. press_table, press_plan, press_check, press_live
 * and press_load give the number's place through their last parameter; of the others it is always 0. A refusal changes nothing else that
 * was lent, but a refused press_read sets the word to 0, and a refused press_open_instance the instance.
 *
 * What a call costs on full tables (docs/PERFORMANCE.md, of an older kit): instructions, and bytes of stack below the caller.
 *   press_table     up to 255,000      3,400        press_new                                    sets 11,656 bytes
 *   press_plan            434,000     15,100        press_load                                   609,000    15,700
 *   press_live            668,000     32,900        press_step: mean 3,600, the busiest           10,800       512
 *   press_check           567,000     15,300        press_read, press_write, press_is_open         3,300       512
 * A check or a loading that is refused by 21 or 22 also searches for the place: up to 11,000,000 instructions.
 */
#ifndef PRESS_H
#define PRESS_H

#include <stddef.h>
#include <stdint.h>

#ifdef __cplusplus
extern "C" {
#endif

/* 100 times a number that rises where programs or kept states must change, and one that rises where something was only added. */
#define PRESS_VERSION 200

/* The numbers, each with its place. */
enum press_number {
    PRESS_DONE = 0,            /* done: bytes planned or records filled, else 0 */
    PRESS_TABLE_CUT = 1,       /* table ends inside a record or before EN: record start */
    PRESS_BAD_MARK = 2,        /* mark unknown or out of section order: record start */
    PRESS_TOO_MANY = 3,        /* 17th TK, 33rd SG, 513th access: record start */
    PRESS_BAD_FIELD = 4,       /* a field breaks its range: record start */
    PRESS_NOT_AFTER = 5,       /* access not after the one before: record start */
    PRESS_AFTER_END = 6,       /* bytes after EN: first such byte */
    PRESS_NO_TASK = 7,         /* no task: 0 */
    PRESS_LONG_HYPER = 8,      /* H above 10,000: 0 */
    PRESS_MANY_INSTANCES = 9,  /* above 512 instances: 0 */
    PRESS_MANY_USES = 10,      /* above 4,096 uses: 0 */
    PRESS_TWO_PUBLISH = 11,    /* two writers of a signal publish at one tick of the hyper-period: lowest such signal */
    PRESS_MANY_ELEMENTS = 12,  /* plan of one signal needs over 32 elements: lowest such signal */
    PRESS_MANY_IN_ALL = 13,    /* plan needs over 256 in all: 0 */
    PRESS_TOO_SHORT = 14,      /* lent buffer or list too short: bytes or records needed */
    PRESS_SCHEDULE_CUT = 15,   /* schedule ends early: start of the record cut or missing */
    PRESS_NOT_FIXED = 16,      /* a byte the table fixes is different: record start */
    PRESS_BAD_COUNT = 17,      /* count not 1 to 32: record start */
    PRESS_BAD_ELEMENT = 18,    /* element not below count: record start */
    PRESS_AFTER_SCHEDULE = 19, /* bytes after the schedule's EN: first such byte */
    PRESS_SUM_ABOVE = 20,      /* counts sum above 256: 0 */
    PRESS_WRONG_READER = 21,   /* reader sent to another element: first such RI */
    PRESS_SHARED = 22,         /* value shares an element while both live: first WI clashing with the carried value or an earlier WI */
    PRESS_NO_ACCESS = 23,      /* no such task, signal or access: 0 */
    PRESS_OUTSIDE = 24,        /* task outside its window: 0 */
    PRESS_UNFIT = 25           /* state unfit: 0 */
};

/* The bounds, and what suffices to lend. */
enum press_bound {
    PRESS_MOST_TASKS = 16,
    PRESS_MOST_SIGNALS = 32,
    PRESS_MOST_ACCESSES = 512,
    PRESS_MOST_INSTANCES = 512,     /* of all tasks in a hyper-period */
    PRESS_MOST_USES = 4096,         /* each access counted once for each instance of its task */
    PRESS_LONGEST_PERIOD = 10000,   /* ticks */
    PRESS_LONGEST_HYPER = 10000,    /* ticks */
    PRESS_MOST_ELEMENTS = 32,       /* of one signal */
    PRESS_WORDS = 256,              /* the element store: of all signals */
    PRESS_LONGEST_TABLE = 2466,     /* bytes */
    PRESS_LONGEST_SCHEDULE = 28802, /* bytes */
    PRESS_MOST_VALUES = 513,        /* records of a live list: the carried value, and one for each instance */
    PRESS_CARRIED_VALUE = 255,      /* stands for the task in the carried value's record */
    PRESS_NONE = 65535              /* stands for no access in a machine's numbers */
};

/* What a number says. */
static inline const char *press_text(unsigned number)
{
    switch (number) {
    case PRESS_DONE: return "done";
    case PRESS_TABLE_CUT: return "the table ends inside a record or before EN";
    case PRESS_BAD_MARK: return "the table has a mark that is unknown or out of order";
    case PRESS_TOO_MANY: return "the table has more than 16 tasks, 32 signals or 512 accesses";
    case PRESS_BAD_FIELD: return "the table has a field that breaks its range";
    case PRESS_NOT_AFTER: return "the table has an access that is not after the one before";
    case PRESS_AFTER_END: return "the table has bytes after EN";
    case PRESS_NO_TASK: return "the table has no task";
    case PRESS_LONG_HYPER: return "the hyper-period is above 10000 ticks";
    case PRESS_MANY_INSTANCES: return "the tasks have more than 512 instances";
    case PRESS_MANY_USES: return "the accesses have more than 4096 uses";
    case PRESS_TWO_PUBLISH: return "two writers of a signal publish at one tick";
    case PRESS_MANY_ELEMENTS: return "a signal's plan needs more than 32 elements";
    case PRESS_MANY_IN_ALL: return "the plan needs more than 256 elements";
    case PRESS_TOO_SHORT: return "the lent buffer or list is too short";
    case PRESS_SCHEDULE_CUT: return "the schedule ends early";
    case PRESS_NOT_FIXED: return "the schedule has another byte than the table fixes";
    case PRESS_BAD_COUNT: return "the schedule has a count that is not 1 to 32";
    case PRESS_BAD_ELEMENT: return "the schedule has an element that is not below its count";
    case PRESS_AFTER_SCHEDULE: return "the schedule has bytes after EN";
    case PRESS_SUM_ABOVE: return "the schedule's counts sum to more than 256";
    case PRESS_WRONG_READER: return "the schedule sends a reader to another element than its value's";
    case PRESS_SHARED: return "the schedule has two values in one element while both live";
    case PRESS_NO_ACCESS: return "no such task, signal or access";
    case PRESS_OUTSIDE: return "the task is outside its window";
    case PRESS_UNFIT: return "the machine's state is not fit";
    default: return "no number of this library";
    }
}

/* Reading a table: 0, or 1 to 11. */
uint8_t press_table(const uint8_t *table, size_t table_length, size_t *place);

/* Planning a table at the front of the lent buffer: 0 with the bytes planned, or 1 to 14. Bytes after the schedule stay. */
uint8_t press_plan(const uint8_t *table, size_t table_length, uint8_t *out, size_t out_length, size_t *place);

/* Checking a schedule made elsewhere: 0, 1 to 11 for the table, or 15 to 22. */
uint8_t press_check(const uint8_t *table, size_t table_length, const uint8_t *schedule, size_t schedule_length, size_t *place);

/*
 * A record of a live list: who publishes the value, from when until when (excluded) it is live, and its planned element.
 * Its four bytes of padding are not determined.
 */
struct press_live_value {
    uint8_t task; /* PRESS_CARRIED_VALUE for the carried value */
    uint16_t instance;
    uint32_t from;
    uint32_t until;
    uint8_t element;
};

/* The live list of a signal at the front of the lent list: 0 with the records filled, or 1 to 11, 23, 12, 14. Records beyond stay. */
uint8_t press_live(const uint8_t *table, size_t table_length, size_t signal, struct press_live_value *list, size_t list_length, size_t *place);

/* The parts of a machine's numbers, one after the other: where each begins. */
enum press_part {
    PRESS_LOADED = 0, /* 1 where it is loaded */
    PRESS_HYPER = 1,
    /* for each task */
    PRESS_PERIODS = 2,
    PRESS_STARTS = PRESS_PERIODS + PRESS_MOST_TASKS,
    PRESS_ENDS = PRESS_STARTS + PRESS_MOST_TASKS,
    PRESS_COUNTS = PRESS_ENDS + PRESS_MOST_TASKS, /* how many instances it has in a hyper-period */
    /* for each task t and signal s, at t * PRESS_MOST_SIGNALS + s: the index of the access's first use, or PRESS_NONE */
    PRESS_READS = PRESS_COUNTS + PRESS_MOST_TASKS,
    PRESS_WRITES = PRESS_READS + PRESS_MOST_TASKS * PRESS_MOST_SIGNALS,
    /* positions in the store: of each use, one for each instance, in the schedule's order */
    PRESS_USES = PRESS_WRITES + PRESS_MOST_TASKS * PRESS_MOST_SIGNALS,
    /* and for each signal: of its element 0, and of what was published last */
    PRESS_CARRIED = PRESS_USES + PRESS_MOST_USES,
    PRESS_HELD = PRESS_CARRIED + PRESS_MOST_SIGNALS,
    PRESS_TICK = PRESS_HELD + PRESS_MOST_SIGNALS, /* within the hyper-period */
    PRESS_NUMBERS = PRESS_TICK + 1
};

/*
 * The machine's state: three lists, and no byte that is not determined. What a loaded table does not use is 0, but an access that it does
 * not have is PRESS_NONE. The state may be read, copied and kept; whatever wrote it, a state that is not fit answers 25 and is left
 * as it is, and no call reads or writes outside it. It is fit exactly when
 *   - the number at PRESS_LOADED is 1, the one at PRESS_HYPER is 1 to 10,000, and the one at PRESS_TICK is below that;
 *   - each task's count is at most 4,096;
 *   - each number in PRESS_READS and PRESS_WRITES is PRESS_NONE, or below 4,096 and, with the task's count added, at most 4,096: where
 *     the count is 0 too, the number is PRESS_NONE or an index of the 4,096 uses;
 *   - each of the 4,096 uses, 32 carried and 32 held is below 256, used or not.
 * Windows, defaults and words may be any. On a fit state, whatever made it:
 *   - a task's instance at a tick is the tick divided by its period; it has none where the period is 0 or the instance not below its count.
 *     With p for the tick modulo the period, the instance is inside its window where start <= p < end, it opens at this tick where
 *     p = start, and closes at the next where p + 1 = end;
 *   - a step first takes the instances that close at the next tick, by task: each signal that the task writes, in order, is held where
 *     the instance has its use. Where the next tick is the hyper-period, each signal's held word is copied to its carried position, in
 *     order, then every carried position is held, and the tick becomes 0. At last it takes the instances that open at the new tick, by
 *     task: each signal that the task writes, in order, has its default put where the instance has its use.
 */
struct press_machine {
    uint16_t numbers[PRESS_NUMBERS]; /* enum press_part has its parts */
    uint16_t unused;                 /* set to 0 by press_new, so that there is no padding; nothing reads it */
    uint32_t defaults[PRESS_MOST_SIGNALS];
    uint32_t store[PRESS_WORDS];
};

/* The layout that the library's proofs count with. */
#define PRESS_HOLDS(name, fact) typedef char press_holds_##name[(fact) ? 1 : -1]
PRESS_HOLDS(size_of_a_length, sizeof(size_t) == 8);
PRESS_HOLDS(size_of_a_live_value, sizeof(struct press_live_value) == 16);
PRESS_HOLDS(offset_of_task, offsetof(struct press_live_value, task) == 0);
PRESS_HOLDS(offset_of_instance, offsetof(struct press_live_value, instance) == 2);
PRESS_HOLDS(offset_of_from, offsetof(struct press_live_value, from) == 4);
PRESS_HOLDS(offset_of_until, offsetof(struct press_live_value, until) == 8);
PRESS_HOLDS(offset_of_element, offsetof(struct press_live_value, element) == 12);
PRESS_HOLDS(how_many_numbers, PRESS_NUMBERS == 5251);
PRESS_HOLDS(offset_of_numbers, offsetof(struct press_machine, numbers) == 0);
PRESS_HOLDS(offset_of_unused, offsetof(struct press_machine, unused) == 2 * 5251);
PRESS_HOLDS(offset_of_defaults, offsetof(struct press_machine, defaults) == 2 * 5252);
PRESS_HOLDS(offset_of_store, offsetof(struct press_machine, store) == 2 * 5252 + 4 * 32);
PRESS_HOLDS(size_of_a_machine, sizeof(struct press_machine) == 2 * 5252 + 4 * 32 + 4 * 256);
#undef PRESS_HOLDS

/* The proved functions, over the lists themselves. */
void press_lists_new(uint16_t *numbers, uint32_t *defaults, uint32_t *store);
uint8_t press_lists_load(uint16_t *numbers, uint32_t *defaults, uint32_t *store, const uint8_t *table, size_t table_length,
                         const uint8_t *schedule, size_t schedule_length, size_t *place);
uint8_t press_lists_step(uint16_t *numbers, const uint32_t *defaults, uint32_t *store);
uint8_t press_lists_read(const uint16_t *numbers, const uint32_t *store, size_t task, size_t signal, uint32_t *word);
uint8_t press_lists_write(const uint16_t *numbers, uint32_t *store, size_t task, size_t signal, uint32_t word);
uint8_t press_lists_open(const uint16_t *numbers, size_t task, uint16_t *instance);

/* A machine before its first loading, so unfit: every byte is 0. */
static inline void press_new(struct press_machine *machine)
{
    press_lists_new(machine->numbers, machine->defaults, machine->store);
    machine->unused = 0;
}

/*
 * Loading: 0, 1 to 11 for the table, or 15 to 22. An accepted loading starts a new history; a refused one leaves the old running.
 * Neither the table nor the schedule is needed again.
 */
static inline uint8_t press_load(struct press_machine *machine, const uint8_t *table, size_t table_length, const uint8_t *schedule,
                                 size_t schedule_length, size_t *place)
{
    return press_lists_load(machine->numbers, machine->defaults, machine->store, table, table_length, schedule, schedule_length, place);
}

/* One tick on: 0, or 25. */
static inline uint8_t press_step(struct press_machine *machine)
{
    return press_lists_step(machine->numbers, machine->defaults, machine->store);
}

/* What a task reads of a signal now: 0 with the word, or 23 to 25 with word 0. Tasks and signals may be any numbers. */
static inline uint8_t press_read(const struct press_machine *machine, size_t task, size_t signal, uint32_t *word)
{
    return press_lists_read(machine->numbers, machine->store, task, signal, word);
}

/* A task's write to a signal: 0, or 23 to 25. */
static inline uint8_t press_write(struct press_machine *machine, size_t task, size_t signal, uint32_t word)
{
    return press_lists_write(machine->numbers, machine->store, task, signal, word);
}

/*
 * Which instance of a task is inside its window now: 0 with the instance, or with instance 0: 25, 23 for a task that the loaded table
 * does not have (one without instances), 24 outside its window.
 */
static inline uint8_t press_open_instance(const struct press_machine *machine, size_t task, uint16_t *instance)
{
    return press_lists_open(machine->numbers, task, instance);
}

/* Whether a task is inside its window now: 1, or 0 where press_open_instance refuses. */
static inline int press_is_open(const struct press_machine *machine, size_t task)
{
    uint16_t instance;
    return press_lists_open(machine->numbers, task, &instance) == PRESS_DONE;
}

#ifdef __cplusplus
}
#endif

#endif
