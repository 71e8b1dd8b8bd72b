/*
 * The functions of symphedra.h under the names baseline_...: the library's own declarations, renamed.
 * With -DBASELINE_AS_SYMPHEDRA they keep the library's names, and the baseline has all of them.
 */
#ifndef BASELINE_H
#define BASELINE_H

#ifndef BASELINE_AS_SYMPHEDRA
#undef SYMPHEDRA_H
#define symphedra_scan         baseline_scan
#define symphedra_list         baseline_list
#define symphedra_judge        baseline_judge
#define symphedra_walk32       baseline_walk32
#define symphedra_sample_count baseline_sample_count
#define symphedra_upgrade_rf64 baseline_upgrade_rf64
#define symphedra_upgrade_bw64 baseline_upgrade_bw64
#define symphedra_read_fmt     baseline_read_fmt
#define symphedra_read_bext    baseline_read_bext
#define symphedra_read_chna    baseline_read_chna
#define symphedra_write_riff   baseline_write_riff
#define symphedra_write_rf64   baseline_write_rf64
#define symphedra_write_bw64   baseline_write_bw64
#define symphedra_write_fmt    baseline_write_fmt
#define symphedra_write_bext   baseline_write_bext
#define symphedra_write_chna   baseline_write_chna
#endif

#include "symphedra.h"

#endif
