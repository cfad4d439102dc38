/* The mappings of a process, by /proc/PID/maps. */
#include "ptrace.h"

#include <stdio.h>
#include <string.h>

/* Reads a line of the file. */
static bool parse(const char *line, struct mapping *mapping) {
    int path = 0;
    if (sscanf(line, "%lx-%lx %*s %lx %lx:%lx %lu %n", &mapping->first, &mapping->end, &mapping->offset, &mapping->device_major,
               &mapping->device_minor, &mapping->inode, &path) < 6 || path == 0)
        return false;
    const size_t length = strcspn(line + path, "\n");
    if (length >= sizeof mapping->path) return false;
    memcpy(mapping->path, line + path, length);
    mapping->path[length] = '\0';
    return true;
}

static bool is_same_file(const struct mapping *one, const struct mapping *other) {
    return one->inode == other->inode && one->device_major == other->device_major && one->device_minor == other->device_minor;
}

/* A module's segments are mapped one after the other, and the first one has the beginning of the file. */
bool dwcheck_ptrace_mapping(pid_t pid, uint64_t address, struct mapping *mapping) {
    char name[32], line[PATH_MAX + 128];
    struct mapping beginning = {0};
    snprintf(name, sizeof name, "/proc/%d/maps", (int)pid);
    FILE *file = fopen(name, "re");
    bool is_found = false;
    while (file && !is_found && fgets(line, sizeof line, file)) {
        if (!parse(line, mapping)) continue;
        if (mapping->offset == 0) beginning.first = mapping->first, beginning.inode = mapping->inode;
        if (mapping->offset == 0) beginning.device_major = mapping->device_major, beginning.device_minor = mapping->device_minor;
        is_found = address >= mapping->first && address < mapping->end;
    }
    if (file) fclose(file);
    mapping->image = is_found && beginning.first && is_same_file(&beginning, mapping) ? beginning.first : 0;
    return is_found;
}
