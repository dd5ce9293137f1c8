/* Domains that are given to, and threads in them, which nova.h includes. */
#ifndef NOVA_DOMAINS_H
#define NOVA_DOMAINS_H

/* A domain of threads of `cpu`, which make it and give to it. It is held at `pd`. The three selectors behind `pd` are for nova_give, in the
   new domain too. `starter` is a local thread of `cpu` without work of its own. */
struct nova_domain {
    nova_selector pd;
    uint32_t cpu;
    nova_selector starter;
};

/* A range that the caller's domain holds, and the hotspot: the page or selector at which the other one will have it. */
struct nova_gift {
    nova_range range;
    uint32_t hotspot;
};

/* What nova_giver, of start.s, is told: so many gifts. It sets the count to 0. */
struct nova_giving {
    volatile uint32_t count;
    const struct nova_gift *gifts;
};

/* Defined by start.s: the entry of a handler of startups, for a portal whose identifier is the address of a struct nova_giving. */
void nova_giver(void);

/* The page at which the program's code begins, and that behind its end. Constants are there, too. */
extern char nova_code_end_symbol[] __asm__("code_end");
#define nova_code_page 1u
#define nova_code_end_page nova_page_of((uint32_t)nova_code_end_symbol)

/* Makes a domain, which holds nothing yet but the portal by which it is given to. */
NOVA_USED static inline enum nova_status nova_create_domain(const struct nova_domain *domain)
{
    enum nova_status status = nova_create_pt(domain->pd + 1, NOVA_OWN_PD, domain->starter, 0, nova_giver);

    if (status == NOVA_SUCCESS)
        status = nova_create_pd(domain->pd, NOVA_OWN_PD, nova_objects(domain->pd + 1, 0, NOVA_PT_EVENT));
    return status;
}

/* Gives ranges to a domain. A virtual CPU in it, ahead of all other threads, takes them by its startup, and dies. What can't be given, since
   the caller's domain doesn't hold it or the place is taken, is skipped. NOVA_BAD_PAR: more than NOVA_ITEMS; NOVA_ABORTED: `cpu` is not the
   caller's, the starter is not of `cpu` or is dead, or the caller has the greatest priority. */
NOVA_USED static inline enum nova_status nova_give(const struct nova_domain *domain, const struct nova_gift *gifts, uint32_t count)
{
    static struct nova_giving nothing;
    struct nova_giving giving = {.count = count, .gifts = gifts};
    nova_selector guest = domain->pd + 2;
    enum nova_status status;

    if (!NOVA_HOLDS(count <= NOVA_ITEMS, nova_wrong_gifts))
        return NOVA_BAD_PAR;
    if (count == 0)
        return NOVA_SUCCESS;
    status = nova_pt_ctrl(domain->pd + 1, (uint32_t)&giving);
    if (status == NOVA_SUCCESS)
        status = nova_create_ec(guest, domain->pd, NOVA_VCPU, domain->cpu, 0, domain->pd + 1);
    if (status != NOVA_SUCCESS)
        return status;
    status = nova_create_sc(guest + 1, NOVA_OWN_PD, guest, NOVA_MOST_PRIORITY, NOVA_MOST_QUANTUM);
    nova_revoke(nova_objects(guest, 0, NOVA_ALL_RIGHTS), NOVA_SELF);
    nova_revoke(nova_objects(guest + 1, 0, NOVA_ALL_RIGHTS), NOVA_SELF);
    if (status != NOVA_SUCCESS || giving.count == 0)
        return status;
    nova_pt_ctrl(domain->pd + 1, (uint32_t)&nothing); /* a startup that comes later finds no gifts */
    return NOVA_ABORTED;
}

/* Puts the pages from `page` up to `end` behind the `count` gifts that are there, each to its own place, and answers how many gifts there are
   then. `gifts` has room for NOVA_ITEMS; what doesn't fit is left out. */
static inline uint32_t nova_gifts_of_pages(struct nova_gift *gifts, uint32_t count, uint32_t page, uint32_t end, uint32_t rights)
{
    while (page < end && count < NOVA_ITEMS) {
        uint32_t order = 0;

        while (page % (2u << order) == 0 && (2u << order) <= end - page)
            order++;
        gifts[count++] = (struct nova_gift){nova_memory(page, order, rights), page};
        page += 1u << order;
    }
    return count;
}

/* Gives the program's code and constants to a domain, each page to its own place, to read and execute. */
NOVA_USED static inline enum nova_status nova_give_code(const struct nova_domain *domain)
{
    struct nova_gift gifts[NOVA_ITEMS];

    return nova_give(domain, gifts, nova_gifts_of_pages(gifts, 0, nova_code_page, nova_code_end_page, NOVA_READ | NOVA_EXECUTE));
}

/* Does what nova_start does, with a thread in another domain: at `event_base` that one is given the portal of the startup, too. The domain
   must hold the thread's code and its stack. */
NOVA_USED static inline enum nova_status nova_start_in(const struct nova_domain *domain, nova_selector target, uint32_t cpu, nova_selector starter,
    nova_selector event_base, nova_entry begin, void *stack_end, uint32_t priority, uint32_t quantum)
{
    struct nova_gift startup = {nova_objects(event_base, 0, NOVA_PT_EVENT), event_base};
    enum nova_status status = nova_create_pt(event_base, NOVA_OWN_PD, starter, NOVA_PC, nova_starter);

    if (status == NOVA_SUCCESS)
        status = nova_pt_ctrl(event_base, (uint32_t)begin);
    if (status == NOVA_SUCCESS)
        status = nova_give(domain, &startup, 1);
    if (status == NOVA_SUCCESS)
        status = nova_create_ec(target, domain->pd, NOVA_GLOBAL, cpu, (uint32_t)stack_end, event_base);
    if (status == NOVA_SUCCESS)
        status = nova_create_sc(target + 1, NOVA_OWN_PD, target, priority, quantum);
    return status;
}

#endif
