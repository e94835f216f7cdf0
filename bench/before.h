/* Included before all else, it makes the header's calls those of the archive before, whose module BEFORE names
   (bench/module.sh): what is built on them then runs on that archive. */
#ifndef BEFORE_H
#define BEFORE_H

#define phachunoi_version before_version
#define phachunoi_fresh before_fresh
#define phachunoi_check before_check
#define phachunoi_collect before_collect
#define phachunoi_allocate_traced before_allocate_traced
#define phachunoi_allocate_untraced before_allocate_untraced
#define phachunoi_set_integer before_set_integer
#define phachunoi_set_null before_set_null
#define phachunoi_set_code before_set_code
#define phachunoi_copy before_copy
#define phachunoi_load before_load
#define phachunoi_store before_store
#define phachunoi_raw_read before_raw_read
#define phachunoi_raw_write before_raw_write
#define phachunoi_same before_same
#define phachunoi_inspect before_inspect
#define phachunoi_open before_open
#define phachunoi_word before_word
#define phachunoi_write before_write
#define phachunoi_read before_read

#endif
