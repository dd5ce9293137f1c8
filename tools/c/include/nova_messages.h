/* Range words and messages, made and taken apart, which nova.h includes. */
#ifndef NOVA_MESSAGES_H
#define NOVA_MESSAGES_H

/* Range words. The base is a page or a selector, and a multiple of 2^order. Where an argument is outside its range, the answer is a word that
   doesn't read: a call that takes it is NOVA_BAD_PAR, and an item is skipped. */

static inline nova_range nova_range_of(enum nova_type type, uint32_t base, uint32_t order, uint32_t rights)
{
    if (!NOVA_HOLDS((uint32_t)type <= NOVA_OBJECTS && order <= NOVA_MOST_ORDER && base < NOVA_SELECTORS && base % (1u << order) == 0 &&
                        rights <= NOVA_ALL_RIGHTS, nova_wrong_range))
        return 2;
    return base << NOVA_BASE_AT | order << NOVA_ORDER_AT | rights << NOVA_RIGHTS_AT | (uint32_t)type;
}

static inline nova_range nova_memory(uint32_t page, uint32_t order, uint32_t rights)
{
    return nova_range_of(NOVA_MEMORY, page, order, rights);
}

static inline nova_range nova_objects(nova_selector selector, uint32_t order, uint32_t rights)
{
    return nova_range_of(NOVA_OBJECTS, selector, order, rights);
}

static inline enum nova_type nova_type_in(nova_range range)
{
    return (enum nova_type)(range & 3);
}

static inline uint32_t nova_rights_in(nova_range range)
{
    return range >> NOVA_RIGHTS_AT & 31;
}

static inline uint32_t nova_order_in(nova_range range)
{
    return range >> NOVA_ORDER_AT & 31;
}

static inline uint32_t nova_base_in(nova_range range)
{
    return range >> NOVA_BASE_AT;
}

static inline uint32_t nova_page_of(uint32_t address)
{
    return address / NOVA_PAGE_BYTES;
}

/* Messages. */

/* How many words and items the message has that is made or was taken. With more than there are, the call or reply is NOVA_BAD_PAR. */
static inline void nova_set_counts(uint32_t words, uint32_t items)
{
    if (!NOVA_HOLDS(words <= NOVA_DATA_WORDS && items <= NOVA_ITEMS && words + 2 * items <= NOVA_DATA_WORDS, nova_wrong_counts))
        words = 0xffff, items = 0;
    nova_words[NOVA_COUNTS] = items << NOVA_ITEMS_AT | words;
}

static inline uint32_t nova_words_in(uint32_t counts)
{
    return counts & 0xffff;
}

static inline uint32_t nova_items_in(uint32_t counts)
{
    return counts >> NOVA_ITEMS_AT;
}

/* Item i delegates a range, and the hotspot, a page or a selector, says where it goes in a window of another size. Where i or the hotspot
   is too large it is NOVA_BAD_PAR, and the item, if there is one, is null. */
static inline enum nova_status nova_delegate(uint32_t i, nova_range range, uint32_t hotspot)
{
    int fits = NOVA_HOLDS(i < NOVA_ITEMS && hotspot < NOVA_SELECTORS, nova_wrong_item);

    if (i >= NOVA_ITEMS)
        return NOVA_BAD_PAR;
    if (!fits)
        range = NOVA_NULL;
    nova_words[NOVA_ITEM_RANGE - 2 * i] = range;
    nova_words[NOVA_ITEM_SECOND - 2 * i] = hotspot << NOVA_HOTSPOT_AT | NOVA_DELEGATE;
    return fits ? NOVA_SUCCESS : NOVA_BAD_PAR;
}

/* Item i asks where the receiver has a range. Where i is too large it is NOVA_BAD_PAR. */
static inline enum nova_status nova_translate(uint32_t i, nova_range range)
{
    if (!NOVA_HOLDS(i < NOVA_ITEMS, nova_wrong_item))
        return NOVA_BAD_PAR;
    nova_words[NOVA_ITEM_RANGE - 2 * i] = range;
    nova_words[NOVA_ITEM_SECOND - 2 * i] = NOVA_TRANSLATE;
    return NOVA_SUCCESS;
}

/* The first word of item i of a message that was taken: where its range went, or where it is held; or 0. */
static inline nova_range nova_item(uint32_t i)
{
    if (!NOVA_HOLDS(i < NOVA_ITEMS, nova_wrong_item))
        return NOVA_NULL;
    return nova_words[NOVA_ITEM_RANGE - 2 * i];
}

/* Where the items go that the thread is sent. */
static inline void nova_set_windows(nova_range translations, nova_range delegations)
{
    nova_words[NOVA_TRANSLATION_WINDOW] = translations;
    nova_words[NOVA_DELEGATION_WINDOW] = delegations;
}

#endif
