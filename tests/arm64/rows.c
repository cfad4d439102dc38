/* Prints the rows of a library for arm64, as tests/arm64/rows.py compares them with those that readelf prints: for each
   address on standard input a line with the CFA and the rules, and `signed` if the return address is signed. The row is
   that of the section, added to a process; for each eighth address, or with the word `all` for each, a look-up in place must
   give the same.
   usage: rows LIBRARY [all] */
#include "rows.h"

int main(int count, char **arguments) {
    if (count != 2 && count != 3) return 2;
    const int every = count == 3 ? 1 : 8;
    static dwcheck_rule rules[DWCHECK_MAX_RULES];
    const struct file file = file_at(arguments[1]);
    const dwcheck_module module = module_of(&file, section_named(&file, ".eh_frame"));
    const dwcheck_header header = header_of(&file, section_named(&file, ".eh_frame_hdr"));
    dwcheck_process process = DWCHECK_CLOSED;
    dwcheck_fault fault;
    dwcheck_row row;
    uint64_t id, address;
    uint32_t is_signed;
    if (dwcheck_process_add(&process, &module, &id, &fault) != DWCHECK_DONE) return 1;
    for (int i = 0; scanf("%" SCNx64, &address) == 1; i++) {
        const dwcheck_module *in_place = i % every == 0 ? &module : NULL;
        if (find_row(&process, in_place, &header, address, &row, rules, &is_signed)) print_row(address, &row, rules, is_signed);
        else printf("%" PRIx64 " none\n", address);
    }
    dwcheck_process_close(&process);
    return 0;
}
