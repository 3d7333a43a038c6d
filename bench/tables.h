/* The tables that are printed, each under its heading. */
#ifndef BENCH_TABLES_H
#define BENCH_TABLES_H

/* long_fills.c, very_long_fills.c, large_strides.c, short_fills.c */
void print_long_fills(int each_input);
void print_very_long_fills(int each_input);
void print_large_strides(void);
void print_short_fills(void);

/* elements.c: ownership and going back; sections.c: first place and steps */
void print_elements(void);
void print_sections(void);

/* growth.c */
void print_growth(void);

/* checkpoints.c */
void print_checkpoints(int each_input);

/* gen_block.c */
void print_gen_block(void);

/* grids.c: fills; grid_calls.c */
void print_grids(int each_input);
void print_grid_calls(void);

#endif
