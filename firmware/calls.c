/* The header's own functions under names that Rust can link, for firmware/random.rs: what is called here is what firmware calls. */
#include "press.h"

#ifdef __cplusplus
extern "C" {
#endif

void c_new(struct press_machine *machine)
{
    press_new(machine);
}

uint8_t c_load(struct press_machine *machine, const uint8_t *table, size_t table_length, const uint8_t *schedule, size_t schedule_length,
               size_t *place)
{
    return press_load(machine, table, table_length, schedule, schedule_length, place);
}

uint8_t c_step(struct press_machine *machine)
{
    return press_step(machine);
}

uint8_t c_read(const struct press_machine *machine, size_t task, size_t signal, uint32_t *word)
{
    return press_read(machine, task, signal, word);
}

uint8_t c_write(struct press_machine *machine, size_t task, size_t signal, uint32_t word)
{
    return press_write(machine, task, signal, word);
}

uint8_t c_open_instance(const struct press_machine *machine, size_t task, uint16_t *instance)
{
    return press_open_instance(machine, task, instance);
}

int c_is_open(const struct press_machine *machine, size_t task)
{
    return press_is_open(machine, task);
}

const char *c_text(unsigned number)
{
    return press_text(number);
}

void random_calls(void);

#ifdef __cplusplus
}
#endif

int main(void)
{
    random_calls();
    return 0;
}
