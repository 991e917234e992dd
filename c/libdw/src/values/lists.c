/* Lists of items, and of memory. */
#include "values.h"

uint32_t dwexpr_libdw_add(struct dwexpr_libdw_list *list, const void *item, size_t size)
{
    if (list->length == list->room) {
        void *more = realloc(list->items, (2 * list->room + 8) * size);
        if (!more)
            return DWEXPR_LIBDW_NO_MEMORY;
        list->items = more;
        list->room = 2 * list->room + 8;
    }
    memcpy((char *)list->items + list->length++ * size, item, size);
    return 0;
}

void *dwexpr_libdw_give(uint32_t code, const struct dwexpr_libdw_list *list, size_t *count)
{
    if (code)
        free(list->items);
    *count = code ? 0 : list->length;
    return code ? NULL : list->items;
}

/* What stands before the bytes of each item in a list of memory. */
struct memory {
    struct memory *next;
};

uint8_t *dwexpr_libdw_take(void **list, size_t size)
{
    struct memory *memory = (struct memory *)malloc(sizeof *memory + size);
    if (!memory)
        return NULL;
    memory->next = (struct memory *)*list;
    *list = memory;
    return (uint8_t *)(memory + 1);
}

void dwexpr_libdw_free_memory(void *first)
{
    struct memory *memory = (struct memory *)first;
    while (memory) {
        struct memory *next = memory->next;
        free(memory);
        memory = next;
    }
}

void dwexpr_libdw_keep(dwexpr_libdw_text *expression, void **list)
{
    struct memory *memory = (struct memory *)expression->memory;
    if (memory) {
        memory->next = (struct memory *)*list;
        *list = memory;
        expression->memory = NULL;
    }
}

void dwexpr_libdw_free_text(dwexpr_libdw_text *expression)
{
    dwexpr_libdw_free_memory(expression->memory);
    expression->memory = NULL;
}
