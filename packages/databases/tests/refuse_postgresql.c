/* What refuse.c does, as functions of PostgreSQL. */
#include "postgres.h"

#include "fmgr.h"

int refuse_memory(long after);
long held_memory(void);

PG_FUNCTION_INFO_V1(refuse_memory_in_sql);

Datum refuse_memory_in_sql(PG_FUNCTION_ARGS) { PG_RETURN_BOOL(refuse_memory(PG_GETARG_INT32(0))); }

PG_FUNCTION_INFO_V1(held_memory_in_sql);

Datum held_memory_in_sql(PG_FUNCTION_ARGS) {
    (void)fcinfo;
    PG_RETURN_INT32((int32)held_memory());
}
