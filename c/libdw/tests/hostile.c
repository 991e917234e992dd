/* Reads the variables of a program whose debug information has wrong bytes: at addresses all over the program, in
 * frames that call each other, with made-up registers and memory. Or it reads those of a core dump whose headers and
 * notes have wrong bytes. It prints how many it read. It has to end, and the sanitizers must find nothing.
 *
 *     hostile FILE FIRST LAST    copies FILE to FILE.changed, changed as each number from FIRST to LAST says */
#include <fcntl.h>
#include <gelf.h>
#include <unistd.h>

#include "walk.h"

static int read_register(void *context, uint32_t number, uint8_t *bytes, size_t *size)
{
    (void)context;
    *size = number > 16 ? 16 : 8;
    memset(bytes, (int)(0x10 + number), *size);
    return number > 33;
}

static int read_memory(void *context, uint64_t address, uint8_t *bytes, size_t size)
{
    (void)context;
    memset(bytes, (int)(address & 0xff), size);
    return address % 16 == 3;
}

/* Reads an object's text, and parts of it: of each kind one, and all members. */
static void read_parts(dwexpr_libdw_object *object, unsigned level)
{
    const dwexpr_libdw_dimension *dimensions;
    Dwarf_Die type = dwexpr_libdw_object_type(object), child, variant;
    dwexpr_libdw_object *part;
    int64_t indexes[64];
    size_t rank, i;
    char text[64];
    int more;
    dwexpr_libdw_object_text(object, text, sizeof text);
    for (more = level < 3 ? dwarf_child(&type, &child) : 1; more == 0; more = dwarf_siblingof(&child, &child)) {
        dwexpr_libdw_object_variant(object, &child, &variant);
        if (!dwexpr_libdw_object_member(object, &child, &part))
            read_parts(part, level + 1);
        dwexpr_libdw_object_free(part);
    }
    dwexpr_libdw_object_named(object, "low", &part);
    dwexpr_libdw_object_free(part);
    if (level < 3 && !dwexpr_libdw_object_follow(object, &part)) {
        read_parts(part, level + 1);
        dwexpr_libdw_object_free(part);
    }
    if (dwexpr_libdw_object_shape(object, &dimensions, &rank))
        return;
    for (i = 0; i < rank; i++)
        indexes[i] = dwexpr_libdw_index(&dimensions[i], any() % 8);
    if (!dwexpr_libdw_object_element(object, indexes, rank, &part))
        read_parts(part, level + 1);
    dwexpr_libdw_object_free(part);
}

static size_t variables, values, whole;

static void read_variable(dwexpr_libdw_frame *frame, Dwarf_Die *variable)
{
    static uint8_t bytes[256], unknown[256];
    dwexpr_libdw_value *value;
    dwexpr_libdw_object *object;
    uint32_t code = dwexpr_libdw_variable(frame, variable, &value);
    variables++;
    if (!code) {
        Dwarf_Die entry;
        values++;
        whole += !dwexpr_libdw_read(frame, value, 1 + any() % (8 * sizeof bytes), bytes, unknown);
        dwexpr_libdw_points_into(value, &value->pieces[0], &entry);
    }
    dwexpr_libdw_release(value);
    if (!dwexpr_libdw_on_entry(frame, variable, &value))
        dwexpr_libdw_read(frame, value, 64, bytes, unknown);
    dwexpr_libdw_release(value);
    if (!dwexpr_libdw_object_of_variable(frame, variable, &object))
        read_parts(object, 0);
    dwexpr_libdw_object_free(object);
}

/* The rules of the CFA and of registers. */
static void read_rules(dwexpr_libdw_frame *frame)
{
    dwexpr_libdw_place place;
    Dwarf_Addr bias, elf_bias;
    Dwarf_Frame *rules;
    Dwarf_CFI *table;
    int number;
    dwexpr_libdw_locate(frame, &place);
    table = dwfl_module_eh_cfi(place.module, &bias);
    if (!table || dwarf_cfi_addrframe(table, place.pc - bias, &rules))
        return;
    for (number = DWEXPR_LIBDW_CFA; number < 17; number++) {
        dwexpr_libdw_text rule;
        dwexpr_libdw_value *value = NULL;
        if (!dwexpr_libdw_rule(rules, dwfl_module_getelf(place.module, &elf_bias), number, &rule))
            dwexpr_libdw_evaluate(frame, &rule, NULL, NULL, &value);
        dwexpr_libdw_release(value);
        dwexpr_libdw_free_text(&rule);
    }
    free(rules);
}

static void read_frame(dwexpr_libdw_frame *frame, size_t index)
{
    dwexpr_libdw_entry *entries;
    size_t count, i;
    (void)index;
    dwexpr_libdw_variables(frame, &entries, &count);
    for (i = 0; i < count; i++)
        read_variable(frame, &entries[i].entry);
    free(entries);
    read_rules(frame);
}

static uint8_t content[1 << 20]; /* of the file as it was */
static GElf_Addr text_address;
static GElf_Off text_offset;
static GElf_Xword text_size;

/* an address of code; the program is position-independent, and begins at 0 */
static Dwarf_Addr next_address(Dwarf_Addr first)
{
    return first + text_address + any() % text_size;
}

/* where a call on x86-64 returns to, mostly */
static Dwarf_Addr next_return(Dwarf_Addr first)
{
    Dwarf_Addr address = next_address(first);
    while (content[text_offset + (address - first - text_address)] != 0xe8 && any() % 1000)
        address = next_address(first);
    return address + 5;
}

/* three frames, each of which called the one before it */
static void read_frames(Dwfl *dwfl, Dwarf_Addr first)
{
    dwexpr_libdw_frame *frames[4] = {NULL, NULL, NULL, NULL};
    dwexpr_libdw_source source = {.dwfl = dwfl, .read_register = read_register, .read_memory = read_memory};
    int i;
    for (i = 2; i >= 0; i--) {
        source.pc = i ? next_return(first) : next_address(first);
        source.is_activation = i == 0;
        source.caller = frames[i + 1];
        dwexpr_libdw_make_frame(&source, &frames[i]);
    }
    read_frame(frames[0], 0);
    for (i = 0; i < 3; i++)
        dwexpr_libdw_free_frame(frames[i]);
}

static void read_program(const char *path)
{
    static const Dwfl_Callbacks finders = {dwfl_build_id_find_elf, dwfl_standard_find_debuginfo,
                                           dwfl_offline_section_address, NULL};
    Dwfl *dwfl = dwfl_begin(&finders);
    Dwfl_Module *module = dwfl_report_offline(dwfl, "hostile", path, -1);
    Dwarf_Addr first;
    int i;
    dwfl_report_end(dwfl, NULL, NULL);
    if (module && dwfl_module_info(module, NULL, &first, NULL, NULL, NULL, NULL, NULL))
        for (i = 0; i < 40; i++)
            read_frames(dwfl, first);
    dwfl_end(dwfl);
}

/* Where the sections of debug information are in the file, or the front of a core dump: pairs of an offset and a
 * length. And where the code is. */
static size_t find_sections(const char *path, size_t places[][2], size_t most, int *is_core)
{
    static const char *const names[] = {".debug_info",     ".debug_loclists", ".debug_loc",      ".debug_abbrev",
                                        ".debug_addr",     ".debug_rnglists", ".debug_str_offsets", ".eh_frame"};
    int file = open(path, O_RDONLY);
    Elf *elf = elf_begin(file, ELF_C_READ, NULL);
    Elf_Scn *section = NULL;
    size_t count = 0, index, i;
    GElf_Ehdr start;
    *is_core = gelf_getehdr(elf, &start) && start.e_type == ET_CORE;
    elf_getshdrstrndx(elf, &index);
    if (*is_core) {
        places[0][0] = 0;
        places[0][1] = 0x1800;
        count = 1;
    }
    while (!*is_core && (section = elf_nextscn(elf, section)) && count < most) {
        GElf_Shdr header;
        gelf_getshdr(section, &header);
        if (!strcmp(elf_strptr(elf, index, header.sh_name), ".text")) {
            text_address = header.sh_addr;
            text_offset = header.sh_offset;
            text_size = header.sh_size;
        }
        for (i = 0; i < sizeof names / sizeof *names; i++)
            if (!strcmp(elf_strptr(elf, index, header.sh_name), names[i]) && header.sh_size) {
                places[count][0] = header.sh_offset;
                places[count++][1] = header.sh_size;
            }
    }
    elf_end(elf);
    close(file);
    return count;
}

int main(int argc, char **argv)
{
    static uint8_t changed[1 << 20];
    size_t places[8][2], count, length;
    unsigned long number, last;
    char path[4096];
    FILE *file;
    int is_core;
    if (argc != 4)
        return 2;
    elf_version(EV_CURRENT);
    count = find_sections(argv[1], places, 8, &is_core);
    file = fopen(argv[1], "rb");
    length = fread(content, 1, sizeof content, file);
    fclose(file);
    last = strtoul(argv[3], NULL, 10);
    snprintf(path, sizeof path, "%s.changed", argv[1]);
    for (number = strtoul(argv[2], NULL, 10); number <= last; number++) {
        unsigned changes, i;
        made_up_state = 0x9e3779b97f4a7c15u * (number + 1);
        memcpy(changed, content, length);
        changes = number ? 1 + (unsigned)(any() % 20) : 0;
        for (i = 0; i < changes; i++) {
            const size_t *place = places[any() % count];
            changed[place[0] + any() % place[1]] = (uint8_t)any();
        }
        passed += (int)changes;
        file = fopen(path, "wb");
        fwrite(changed, 1, length, file);
        fclose(file);
        if (is_core)
            read_core(path, 256, read_frame);
        else
            read_program(path);
        remove(path);
    }
    printf("%zu variables, %zu with a value, %zu of them whole\n", variables, values, whole);
    check(variables > 0, argv[1], "it has variables");
    return finish();
}
