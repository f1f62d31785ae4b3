/* Making tables and growing a wood in C++, for comparison only: nothing of it is proved. */
#ifndef TABLES_H
#define TABLES_H

#include "sotjarn.h"

#ifdef __cplusplus
extern "C" {
#endif

struct sotjarn_made cpp_make(const uint32_t *upload, size_t upload_len, uint32_t *rows, size_t rows_len, uint32_t *pos, size_t pos_len,
                             uint32_t *osp, size_t osp_len, uint32_t *report, size_t report_len);
struct sotjarn_tables cpp_grow(uint32_t seed, uint32_t stems, uint32_t year, uint32_t *rows, size_t rows_len, uint32_t *pos, size_t pos_len,
                               uint32_t *osp, size_t osp_len);

#ifdef __cplusplus
}
#endif

#endif
