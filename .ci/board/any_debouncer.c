#include CONTROLLER

static volatile unsigned any;

bool debouncer_read_samples(bool *value)
{
    *value = any % 2u == 0u;
    return any % 2u == 0u;
}

void debouncer_write_changes(const T_Edge *value)
{
    any = value->tag == C_Rise ? value->u.c_Rise.f0 : value->u.c_Fall.f0;
}

void any_run(void)
{
    debouncer_init();
    /* A count is there only in doubt, so states with and without doubt are looked at apart. */
    //@ dynamic_split b_clean.i_state.v.tag;
    for (;;) {
        debouncer_step();
    }
}
