"""Desks that work in a wrong order: edits of the example desk, each with what crash.py or fair_crash.py has to say of it."""

LINE, LF = "    file_write(file, line, len - 1);\n", "    file_write(file, line + len - 1, 1);\n"
SYNC = "    file_sync(file);\n"
SYNC_KEY = """    file_sync(file);
    file_close(file);
"""
STORE, MONEY, DONE = "    store_record(&record);\n", "    write_chip(&record);\n", "    show_done(&record);\n"
NEW = """file_new(secret->name_new);
    folder_sync();
"""
RENAME = """    file_rename(secret->name_new, secret->name);
    folder_sync();
"""
REPLACE = """    file_link(secret->name, secret->name_old);
    folder_sync();
    secret_name_new(secret);
    file_discard(secret->name_old);
"""
TIDY_NEW, TIDY_OLD = "    file_discard(secret->name_new);\n", "    file_discard(secret->name_old);\n"
MOVED = """    if (kes_count(moved) == 0)
        return;
"""
STORED = "    secret_replace(&KEY, desk.table, desk.table_len);\n"
NAMED = """    secret_write_new(&KEY, desk.table, desk.table_len);
    secret_name_new(&KEY);
"""

LACKS_ONE = "lacks a record"
LACKS, PAST, STUCK, FREED = "the journal lacks a record", "can sign a step before", "the desk does not go on", "freed blocks hold a key"

# what is wrong, what is said of it, and the edits: a text that stands once in the desk's sources, and another in its place
WRONG = [
    ('"done" before the record is synced', LACKS, [(LF + SYNC, LF)]),
    ("a record and its LF are synced together", STUCK, [(LINE + SYNC, LINE)]),
    ('"done" before the record is written', LACKS, [(STORE + MONEY + DONE, MONEY + DONE + STORE)]),
    ("money before the record", LACKS, [(STORE + MONEY, MONEY + STORE)]),
    ("a moved key signs before it is stored", PAST, [(MOVED + STORED, MOVED), (DONE, DONE + STORED)]),
    ('"done" first, then the move, then the signature', STUCK, [("    sign(&record);\n" + STORE + MONEY + DONE, DONE + "    desk_tick(desk_step() + 1);\n    sign(&record);\n" + STORE + MONEY)]),
    ("the key is overwritten in place", STUCK, [(NEW, "file_new(secret->name);\n"), (REPLACE, ""), (RENAME, "    (void)secret;\n")]),
    ("a new key is named before it is synced", STUCK, [(SYNC_KEY, "    file_close(file);\n")]),
    ("the old key is zeroed before the new one's name is synced", STUCK, [(REPLACE, REPLACE.replace("secret_name_new(secret)", "file_rename(secret->name_new, secret->name)"))]),
    ("the old key stays under its second name", STUCK, [("    secret_name_new(secret);\n" + TIDY_OLD, "    secret_name_new(secret);\n")]),
    ("the old key is not zeroed", FREED, [(REPLACE, "    secret_name_new(secret);\n")]),
    ("the old key's second name is not synced", FREED, [(REPLACE, REPLACE.replace("    folder_sync();\n", ""))]),
    ("a new key is written before its name is synced", FREED, [(NEW, "file_new(secret->name_new);\n")]),
    ("the next start leaves key.new", "other files", [(TIDY_NEW + TIDY_OLD, TIDY_OLD)]),
    ("the next start leaves key.old", STUCK, [(TIDY_NEW + TIDY_OLD, TIDY_NEW)]),
    ("the next start does not sync what a killed desk renamed", STUCK, [("    folder_sync();\n    desk.table_len = secret_read", "    desk.table_len = secret_read")]),
    ("the next start does not sync what a killed desk appended", LACKS, [(SYNC + "    if (tail->end", "    if (tail->end")]),
    ("the next start leaves a torn line", "the journal is not good", [("tail->from + (off_t)tail->end)", "tail->from + (off_t)tail->len)")]),
    ("the next start does not name the last record", "is not named", [("    if (desk.serial > 0 && starts)\n", "    if (0 && starts)\n")]),
    ("the key stays in memory", "memory holds a secret", [("        at[i] = 0;\n", "        (void)at[i];\n")]),
    ("the desk goes on where the module is not reached", "does not wait", [("    return silent;\n", "    return 0;\n")]),
    ("the desk does not say that the module is not reached", "does not say", [("    if (silent && !out_of_reach)\n", "    if (0)\n")]),
    ("the same number is asked at a second time", "at another number", [("    int silent = number == KES_UNANSWERED;\n", "    int silent = number == KES_UNANSWERED;\n    tally -= (uint64_t)silent;\n")]),
    ("the key gets its name before the journal is there", STUCK, [("    each_window(windows, store_header);\n" + NAMED, NAMED + "    each_window(windows, store_header);\n")]),
]

CERTIFIED = "    store_certificate();\n"
WRITTEN, MOVES_ON, CACHE_NAMED = "    secret_write_new(&CACHE, fair.cache, fair.cache_len);\n", "    desk_tick(desk_step() + 1);\n", "    secret_name_new(&CACHE);\n"
STORE_SALE, PRINT, SHOW, MOVE = "    store_sale(&sale);\n", "    print_receipt(&sale);\n", "    show_done(&sale);\n", "    move_on();\n"
FINISH = """    if (sold == cache_step() + 1)
        finish(&last);
"""
NOT_MOVED, NO_CERTIFICATE = "the desk's key has not moved on", "the certificate is not on the disk"
LACKS_SALE, NOT_NEXT = "lacks a sale", "the cache is not that of the next sale"

WRONG_FAIRS = [
    ("the desk's key moves on after the cache can sell", NOT_MOVED, [(MOVES_ON + CACHE_NAMED, CACHE_NAMED + MOVES_ON)]),
    ("the desk's key moves on after the first sale", NOT_MOVED, [(MOVES_ON, ""), ("certificate->step >= desk_step()", "0"), (PRINT + SHOW + MOVE, PRINT + SHOW + MOVE + MOVES_ON)]),
    ("the desk's key moves on before the certificate is stored", NO_CERTIFICATE, [(CERTIFIED + WRITTEN + MOVES_ON, WRITTEN + MOVES_ON + CERTIFIED)]),
    ("the desk's key moves on before the certificate is synced", NO_CERTIFICATE, [("    file_write(file, first, len);\n" + SYNC, "    file_write(file, first, len);\n")]),
    ("a receipt before the sale is stored", LACKS_SALE, [(STORE_SALE + PRINT, PRINT + STORE_SALE)]),
    ("the cache moves before the sale is stored", STUCK, [(STORE_SALE + PRINT + SHOW + MOVE, MOVE + STORE_SALE + PRINT + SHOW)]),
    ("the cache moves before the receipt is printed", "is not named", [(PRINT + SHOW + MOVE, MOVE + PRINT + SHOW)]),
    ("the next start sells a second time at the last sale's step", NOT_NEXT, [("    print_receipt(last);\n" + MOVE, "    print_receipt(last);\n")]),
    ("the next start does not name the last sale", "is not named", [(FINISH, "    (void)finish;\n" + FINISH.replace("finish(&last)", "move_on()"))]),
    ("the next start leaves cache.new", "other files", [("    secret_tidy(&CACHE);\n", "    file_discard(CACHE.name_old);\n")]),
    ("the cache is zeroed under its own name", STUCK, [("    file_rename(secret->name, secret->name_old);\n    folder_sync();\n" + TIDY_OLD, "    file_discard(secret->name);\n")]),
    ("the evening leaves the cache", "other files", [("    if (fair.cache_len > 0)\n        destroy_cache();\n", "")]),
    ("each try has a tally of its own", "at another number", [("sizeof sale->signature, module_tally());", "sizeof sale->signature, &(uint64_t){0});")]),
    ("the cache stays in memory", "memory holds a secret", [("    memory_guard(&fair, sizeof fair);\n", "")]),
]

RELEASED = """    if (memcmp(before, desk.table, sizeof before) != 0)
        secret_replace(&KEY, desk.table, desk.table_len);
"""
SHOW_RELEASED = '    show(kes_count(moved) > 0 ? "step: %" PRIu64 "\\n" : "released: %" PRIu64 "\\n", step);\n'
WRONG_WINDOWS = [
    ("a tick is not stored", "not at the step that both have released", [(RELEASED, "    (void)before;\n")]),
    ("a step is shown before the moved key is stored", PAST, [(RELEASED + SHOW_RELEASED, SHOW_RELEASED + RELEASED)]),
    ("money before the record", LACKS_ONE, [(STORE + MONEY, MONEY + STORE)]),
]

# where the last step is sold
WRONG_ENDS = [("the last sale leaves the cache", NOT_NEXT, [("        destroy_cache();\n        return;\n", "        return;\n")])]
