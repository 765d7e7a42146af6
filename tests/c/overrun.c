/* A library with a mistake that guarded.c must find: it looks at the byte behind the table. */
#include "simazokwa.h"

uint32_t simazokwa_check(const uint8_t *table, size_t table_len)
{
    volatile uint8_t behind = table[table_len];
    (void)behind;
    return SIMAZOKWA_BAD_HEADER;
}

uint32_t simazokwa_run(const uint8_t *table, size_t table_len, const int64_t *inputs, size_t inputs_len, int64_t limit,
                       int64_t *answer, int64_t *record, size_t record_len)
{
    (void)inputs, (void)inputs_len, (void)limit, (void)answer, (void)record, (void)record_len;
    return simazokwa_check(table, table_len);
}

uint32_t simazokwa_patch(const uint8_t *table, size_t table_len, const int64_t *old_record, size_t old_len,
                         const int64_t *changes, size_t changes_len, int64_t *answer, int64_t *record, size_t record_len)
{
    (void)old_record, (void)old_len, (void)changes, (void)changes_len, (void)answer, (void)record, (void)record_len;
    return simazokwa_check(table, table_len);
}
