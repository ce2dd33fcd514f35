/*
 * The calls of the second program (second/), for a program in C that compares it with the library. second_X takes what wb_X takes
 * and answers with the same struct; writebehind.h describes both. It needs a heap and is not proved.
 */
#ifndef SECOND_CALLS_H
#define SECOND_CALLS_H

#include "writebehind.h"

__typeof__(wb_format) second_format;
__typeof__(wb_mount) second_mount;
__typeof__(wb_lookup) second_lookup;
__typeof__(wb_list) second_list;
__typeof__(wb_stat) second_stat;
__typeof__(wb_read) second_read;
__typeof__(wb_create) second_create;
__typeof__(wb_mkdir) second_mkdir;
__typeof__(wb_remove_file) second_remove_file;
__typeof__(wb_remove_directory) second_remove_directory;
__typeof__(wb_rename) second_rename;
__typeof__(wb_write) second_write;
__typeof__(wb_setlen) second_setlen;
__typeof__(wb_forder) second_forder;
__typeof__(wb_push) second_push;
__typeof__(wb_fsync) second_fsync;
__typeof__(wb_cut) second_cut;
__typeof__(wb_take) second_take;
__typeof__(wb_renew) second_renew;
__typeof__(wb_record) second_record;

#endif
