/* Case A planned, checked and loaded, then case B run, as firmware would: with memory of its own and the library's functions alone. */
#include "press.h"

#include <stdio.h>
#include <string.h>

/* Case A: task 0 0-4/10 writes, task 1 0-5/5 reads signal 0, whose default is 7. */
static const uint8_t table[] =
    "TK\0\0\0\x0A\0\0\0\0\0\0\0\x04"
    "TK\0\0\0\x05\0\0\0\0\0\0\0\x05"
    "SG\0\0\0\x07"
    "WR\0\0"
    "RD\x01\0"
    "EN";
enum { TABLE_LENGTH = sizeof table - 1 };

static uint8_t schedule[PRESS_LONGEST_SCHEDULE];
static struct press_machine machine;

/* No function may leave this number where it gives a place. */
enum { UNTOLD = 9999 };
static size_t place = UNTOLD;

static void told(const char *what, uint8_t number)
{
    printf("%s: %u place %zu\n", what, number, place);
    place = UNTOLD;
}

static void hex(const char *what, const uint8_t *bytes, size_t length)
{
    printf("%s: ", what);
    for (size_t i = 0; i < length; i++) {
        printf("%02X", bytes[i]);
    }
    printf("\n");
}

/* Ticks since loading; the machine's own tick starts anew at each hyper-period. */
static unsigned ticks = 0;

static void reads(size_t task, size_t signal)
{
    uint32_t word = 4711;
    uint8_t number = press_read(&machine, task, signal, &word);
    printf("tick %u: task %zu reads %u: %u\n", ticks, task, word, number);
}

static void writes(size_t task, size_t signal, uint32_t word)
{
    uint8_t number = press_write(&machine, task, signal, word);
    printf("tick %u: task %zu writes %u: %u\n", ticks, task, word, number);
}

static void opens(size_t task)
{
    uint16_t instance = 4711;
    uint8_t number = press_open_instance(&machine, task, &instance);
    printf("tick %u: task %zu is %s: %u instance %u\n", ticks, task, press_is_open(&machine, task) ? "open" : "not open", number, instance);
}

static void steps_to(unsigned tick)
{
    while (ticks < tick) {
        uint8_t number = press_step(&machine);
        if (number != PRESS_DONE) {
            printf("step: %u\n", number);
        }
        ticks++;
    }
}

static void planned_and_checked(void)
{
    told("table", press_table(table, TABLE_LENGTH, &place));
    told("table without its last byte", press_table(table, TABLE_LENGTH - 1, &place));
    told("no bytes", press_table(table, 0, &place));

    memset(schedule, 0xEE, sizeof schedule);
    told("plan into 26 bytes", press_plan(table, TABLE_LENGTH, schedule, 26, &place));
    hex("bytes 0 to 3", schedule, 4);
    told("plan", press_plan(table, TABLE_LENGTH, schedule, sizeof schedule, &place));
    hex("schedule", schedule, 27);
    hex("byte 27", schedule + 27, 1);

    told("check", press_check(table, TABLE_LENGTH, schedule, 27, &place));
    told("check of a byte more", press_check(table, TABLE_LENGTH, schedule, 28, &place));
    schedule[24] = 0;
    told("check of case I", press_check(table, TABLE_LENGTH, schedule, 27, &place));
    schedule[24] = 1;
}

static void live_list(void)
{
    static struct press_live_value list[3];
    memset(list, 0xEE, sizeof list);
    told("live list in 1 record", press_live(table, TABLE_LENGTH, 0, list, 1, &place));
    printf("record 0 is of task %u\n", list[0].task);
    told("live list of signal 1", press_live(table, TABLE_LENGTH, 1, list, 3, &place));
    told("live list", press_live(table, TABLE_LENGTH, 0, list, 3, &place));
    for (size_t i = 0; i < 3; i++) {
        printf("task %u instance %u from %u until %u element %u\n", list[i].task, list[i].instance, list[i].from, list[i].until, list[i].element);
    }
}

static size_t bytes_not_0(void)
{
    const uint8_t *bytes = (const uint8_t *)&machine;
    size_t found = 0;
    for (size_t i = 0; i < sizeof machine; i++) {
        found += bytes[i] != 0;
    }
    return found;
}

static void unloaded(void)
{
    memset(&machine, 0xEE, sizeof machine);
    press_new(&machine);
    printf("%zu bytes, not 0: %zu\n", sizeof machine, bytes_not_0());
    printf("step: %u\n", press_step(&machine));
    reads(1, 0);
    writes(0, 0, 20);
    opens(0);
    told("load without the last byte", press_load(&machine, table, TABLE_LENGTH, schedule, 26, &place));
    printf("not 0: %zu\n", bytes_not_0());
}

/* A number of the machine's, by its part. */
static unsigned kept(enum press_part part, size_t index)
{
    return machine.numbers[part + index];
}

static void window(size_t task)
{
    printf("task %zu %u-%u/%u, instances %u\n", task, kept(PRESS_STARTS, task), kept(PRESS_ENDS, task), kept(PRESS_PERIODS, task),
           kept(PRESS_COUNTS, task));
}

static void case_b(void)
{
    told("load", press_load(&machine, table, TABLE_LENGTH, schedule, 27, &place));
    memset(schedule, 0, sizeof schedule);
    printf("loaded %u, hyper %u, tick %u\n", kept(PRESS_LOADED, 0), kept(PRESS_HYPER, 0), kept(PRESS_TICK, 0));
    window(0);
    window(1);
    window(2);
    printf("signal 0 default %u, store %u %u %u\n", machine.defaults[0], machine.store[0], machine.store[1], machine.store[2]);
    reads(1, 0);
    steps_to(2);
    opens(0);
    writes(0, 0, 20);
    printf("store %u %u %u\n", machine.store[0], machine.store[1], machine.store[2]);
    steps_to(4);
    reads(1, 0);
    opens(0);
    opens(1);
    opens(2);
    opens((size_t)-1);
    writes(0, 0, 21);
    reads(0, 0);
    reads(1, (size_t)-1);
    told("load of a table of no bytes", press_load(&machine, table, 0, schedule, 27, &place));
    steps_to(5);
    opens(1);
    reads(1, 0);
    steps_to(10);
    opens(1);
    reads(1, 0);
    printf("the machine's tick is %u\n", kept(PRESS_TICK, 0));
    steps_to(15);
    reads(1, 0);
}

static void unfit(void)
{
    struct press_machine before;
    uint8_t number;
    machine.numbers[PRESS_TICK] = machine.numbers[PRESS_HYPER];
    before = machine;
    number = press_step(&machine);
    printf("step of a state whose tick is H: %u, %s\n", number, press_text(number));
    reads(1, 0);
    opens(1);
    printf("changed %d\n", memcmp(&before, &machine, sizeof machine) != 0);
}

int main(void)
{
    planned_and_checked();
    live_list();
    unloaded();
    case_b();
    unfit();
    return 0;
}
