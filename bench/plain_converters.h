/* The two converters in plain C with the arguments and results of the exports: their benchmark's baseline. */
#ifndef PLAIN_CONVERTERS_H
#define PLAIN_CONVERTERS_H

#include <stddef.h>
#include <stdint.h>

/* Each does what the export of the same name does (tables_compact, tables_expand). */
uint32_t plain_compact(const uint8_t *in, size_t in_bytes, uint8_t *out, size_t out_bytes,
                       uint32_t edition);
uint32_t plain_expand(const uint8_t *in, size_t in_bytes, uint8_t *out, size_t out_bytes,
                      uint32_t edition);

#endif
