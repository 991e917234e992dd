/* Symbols, and which one a module's name stands for: the dynamic linker wrote it into the process (System V ABI,
 * "Relocation"). */
#include "values.h"

/* ---- symbols */

/* Finds a symbol among those that a module exports. */
static int is_exported(Dwfl_Module *module, struct dwexpr_libdw_symbol *symbol)
{
    GElf_Shdr header = {.sh_type = SHT_NULL};
    Dwarf_Addr bias;
    Elf *elf = dwfl_module_getelf(module, &bias);
    Elf_Scn *section = NULL;
    int i;
    while (header.sh_type != SHT_DYNSYM && (section = elf_nextscn(elf, section)) != NULL)
        gelf_getshdr(section, &header);
    for (i = 1; gelf_getsym(elf_getdata(section, NULL), i, &symbol->symbol); i++) {
        const char *name = elf_strptr(elf, header.sh_link, symbol->symbol.st_name);
        if (!name || symbol->symbol.st_shndx == SHN_UNDEF || strcmp(name, symbol->name))
            continue;
        symbol->module = module;
        symbol->address = symbol->symbol.st_value + bias;
        return 1;
    }
    return 0;
}

int dwexpr_libdw_find_symbol(Dwfl_Module *module, Dwarf_Addr address, struct dwexpr_libdw_symbol *symbol)
{
    int i;
    symbol->module = module;
    for (i = dwfl_module_getsymtab(module); i > 0; i--) {
        const char *found = dwfl_module_getsym_info(module, i - 1, &symbol->symbol, &symbol->address, NULL, NULL, NULL);
        const int type = GELF_ST_TYPE(symbol->symbol.st_info);
        /* each unit may have a variable of a name to itself */
        const int is_wanted = address ? symbol->address == address
                                      : GELF_ST_BIND(symbol->symbol.st_info) != STB_LOCAL || type == STT_FUNC;
        if (found && is_wanted && symbol->symbol.st_shndx != SHN_UNDEF && !strcmp(found, symbol->name))
            return 1;
    }
    return 0;
}

int dwexpr_libdw_find_exported(Dwfl *dwfl, struct dwexpr_libdw_symbol *symbol)
{
    Dwfl_Module *module;
    ptrdiff_t at = 0;
    while ((at = dwexpr_libdw_next_module(dwfl, at, &module)) > 0)
        if (is_exported(module, symbol))
            return 1;
    return 0;
}

/* ---- relocations */

/* The types of each kind of relocation. On i386 the addend of an address is in the process no more. */
static const struct {
    uint16_t machine, types[8];
    uint8_t kinds[8];
} machines[] = {
    {EM_X86_64, {R_X86_64_COPY, R_X86_64_GLOB_DAT, R_X86_64_JUMP_SLOT, R_X86_64_64, R_X86_64_DTPMOD64, R_X86_64_TPOFF64,
                 R_X86_64_TLSDESC},
     {IS_COPY, HAS_ADDRESS, HAS_ADDRESS, HAS_SUM, HAS_MODULE, HAS_DISTANCE, HAS_DESCRIPTOR}},
    {EM_386, {R_386_COPY, R_386_GLOB_DAT, R_386_JMP_SLOT, R_386_TLS_DTPMOD32, R_386_TLS_TPOFF, R_386_TLS_DESC},
     {IS_COPY, HAS_ADDRESS, HAS_ADDRESS, HAS_MODULE, HAS_DISTANCE, HAS_DESCRIPTOR}},
    {EM_AARCH64, {R_AARCH64_COPY, R_AARCH64_GLOB_DAT, R_AARCH64_JUMP_SLOT, R_AARCH64_ABS64},
     {IS_COPY, HAS_ADDRESS, HAS_ADDRESS, HAS_SUM}},
    {EM_S390, {R_390_COPY, R_390_GLOB_DAT, R_390_JMP_SLOT, R_390_64},
     {IS_COPY, HAS_ADDRESS, HAS_ADDRESS, HAS_SUM}},
};

static enum dwexpr_libdw_relocation_kind kind_of(unsigned machine, uint64_t type)
{
    size_t i, j;
    for (i = 0; i < sizeof machines / sizeof *machines; i++)
        for (j = 0; machines[i].machine == machine && machines[i].kinds[j]; j++)
            if (machines[i].types[j] == type)
                return (enum dwexpr_libdw_relocation_kind)machines[i].kinds[j];
    return IS_OTHER;
}

/* How well a relocation's symbol is the wanted one: 2 by its name, 1 if it is another name of the module's own
 * variable, else 0. */
static int rank_of(const char *name, const GElf_Sym *found, const struct dwexpr_libdw_symbol *wanted)
{
    if (name && !strcmp(name, wanted->name))
        return 2;
    return wanted->module && found->st_shndx != SHN_UNDEF && found->st_value == wanted->symbol.st_value &&
           GELF_ST_TYPE(found->st_info) == GELF_ST_TYPE(wanted->symbol.st_info);
}

/* Reads a relocation of either form. Gives back whether there is one. */
static int read_relocation(Elf_Data *data, unsigned form, int index, GElf_Rela *relocation)
{
    GElf_Rel without_addend;
    if (form == SHT_RELA)
        return gelf_getrela(data, index, relocation) != NULL;
    if (!gelf_getrel(data, index, &without_addend))
        return 0;
    *relocation = (GElf_Rela){without_addend.r_offset, without_addend.r_info, 0};
    return 1;
}

/* Finds the relocation of a module that best names a symbol: the module's own if `wanted->module` isn't NULL. Gives
 * back whether there is one. */
static int find_relocation(Dwfl_Module *module, const struct dwexpr_libdw_symbol *wanted,
                           struct dwexpr_libdw_relocation *found)
{
    GElf_Ehdr header = {.e_machine = EM_NONE};
    Dwarf_Addr bias;
    Elf *elf = dwfl_module_getelf(module, &bias);
    Elf_Scn *section = NULL;
    int best = 0, i;
    gelf_getehdr(elf, &header);
    while ((section = elf_nextscn(elf, section)) != NULL) {
        GElf_Shdr form = {.sh_type = SHT_NULL}, table = form;
        GElf_Rela relocation;
        Elf_Scn *symbols;
        gelf_getshdr(section, &form);
        if (form.sh_type != SHT_RELA && form.sh_type != SHT_REL)
            continue;
        symbols = elf_getscn(elf, form.sh_link);
        gelf_getshdr(symbols, &table);
        if (table.sh_type != SHT_DYNSYM)
            continue;
        for (i = 0; read_relocation(elf_getdata(section, NULL), form.sh_type, i, &relocation); i++) {
            const enum dwexpr_libdw_relocation_kind kind = kind_of(header.e_machine, GELF_R_TYPE(relocation.r_info));
            GElf_Sym symbol = {.st_shndx = SHN_UNDEF}; /* as of a relocation without a symbol */
            int rank;
            gelf_getsym(elf_getdata(symbols, NULL), (int)GELF_R_SYM(relocation.r_info), &symbol);
            rank = 2 * rank_of(elf_strptr(elf, table.sh_link, symbol.st_name), &symbol, wanted);
            rank -= rank && kind == IS_OTHER;
            if (rank <= best)
                continue;
            best = rank;
            *found = (struct dwexpr_libdw_relocation){kind, module, relocation.r_offset + bias, relocation.r_addend};
        }
    }
    return best > 0;
}

/* Reads the address that the dynamic linker wrote for a relocation. Returns 0; DWEXPR_LIBDW_NOT_DEFINED if there is 0,
 * as no module had the symbol; or DWEXPR_LIBDW_AMBIGUOUS if it isn't known, or if the slot of a function leads back
 * into its module, which doesn't have that. */
static uint32_t read_address(const dwexpr_libdw_frame *frame, const struct dwexpr_libdw_relocation *relocation,
                             struct dwexpr_libdw_symbol *symbol)
{
    uint8_t bytes[8];
    Dwarf_Addr bias;
    Elf *elf = dwfl_module_getelf(relocation->module, &bias);
    const size_t word = gelf_getclass(elf) == ELFCLASS32 ? 4 : 8;
    const int is_known = relocation->kind == HAS_ADDRESS || relocation->kind == HAS_SUM;
    uint64_t content = relocation->place;
    if (relocation->kind != IS_COPY) {
        if (!is_known || dwexpr_libdw_memory(frame, relocation->place, bytes, word))
            return DWEXPR_LIBDW_AMBIGUOUS;
        content = dwexpr_libdw_number_of(bytes, word, elf_getident(elf, NULL)[EI_DATA] == ELFDATA2MSB);
        if (!content)
            return DWEXPR_LIBDW_NOT_DEFINED;
        content -= relocation->kind == HAS_SUM ? (uint64_t)relocation->addend : 0;
        if (!symbol->module && dwfl_addrmodule(frame->source.dwfl, content) == relocation->module)
            return DWEXPR_LIBDW_AMBIGUOUS;
    }
    symbol->module = dwfl_addrmodule(frame->source.dwfl, content);
    symbol->address = content;
    symbol->symbol.st_info = GELF_ST_INFO(STB_GLOBAL, STT_OBJECT);
    return 0;
}

/* ---- what a name stands for */

/* Finds the program's copy of a variable. */
static int find_copy(Dwfl *dwfl, struct dwexpr_libdw_symbol *symbol)
{
    struct dwexpr_libdw_symbol copy = {.name = symbol->name};
    struct dwexpr_libdw_relocation relocation;
    Dwfl_Module *module;
    ptrdiff_t at = 0;
    while ((at = dwexpr_libdw_next_module(dwfl, at, &module)) > 0)
        if (is_exported(module, &copy) && find_relocation(module, &copy, &relocation) && relocation.kind == IS_COPY) {
            *symbol = copy;
            return 1;
        }
    return 0;
}

uint32_t dwexpr_libdw_look_up(dwexpr_libdw_frame *frame, const struct dwexpr_libdw_relocation *relocation,
                              struct dwexpr_libdw_symbol *symbol)
{
    struct dwexpr_libdw_symbol other = {.name = symbol->name};
    Dwfl_Module *module;
    ptrdiff_t at = 0;
    int count = 0;
    if (find_copy(frame->source.dwfl, symbol))
        return 0;
    while ((at = dwexpr_libdw_next_module(frame->source.dwfl, at, &module)) > 0) {
        if (!is_exported(module, &other))
            continue;
        count++;
        *symbol = other;
        if (relocation && dwexpr_libdw_is_bound(frame, relocation, symbol))
            return 0;
    }
    return count == 1 ? 0 : count ? DWEXPR_LIBDW_AMBIGUOUS : DWEXPR_LIBDW_NOT_DEFINED;
}

/* Whether a module's references to a symbol that it exports may be bound to another one. */
static int may_be_elsewhere(Dwfl_Module *module, const GElf_Sym *symbol)
{
    GElf_Phdr segment;
    GElf_Dyn entry;
    Dwarf_Addr bias;
    Elf_Data *entries;
    int i;
    if (GELF_ST_VISIBILITY(symbol->st_other) != STV_DEFAULT ||
        !dwexpr_libdw_find_segment(module, PT_DYNAMIC, &segment, &bias))
        return 0;
    entries = elf_getdata_rawchunk(dwfl_module_getelf(module, &bias), (int64_t)segment.p_offset,
                                   (size_t)segment.p_filesz, ELF_T_DYN);
    for (i = 0; gelf_getdyn(entries, i, &entry); i++)
        if (entry.d_tag == DT_SYMBOLIC || (entry.d_tag == DT_FLAGS && entry.d_un.d_val & DF_SYMBOLIC))
            return 0;
    return 1;
}

uint32_t dwexpr_libdw_resolve(dwexpr_libdw_frame *frame, Dwfl_Module *module, const uint64_t *own,
                              struct dwexpr_libdw_symbol *symbol)
{
    struct dwexpr_libdw_relocation relocation;
    int is_own = is_exported(module, symbol);
    if (own && (!is_own || (symbol->address != *own && GELF_ST_TYPE(symbol->symbol.st_info) != STT_TLS))) {
        symbol->module = module;
        symbol->address = *own;
        symbol->symbol.st_info = GELF_ST_INFO(STB_LOCAL, STT_OBJECT);
        return 0;
    }
    if (!is_own)
        symbol->module = NULL;
    if (find_relocation(module, symbol, &relocation)) {
        const uint32_t code = read_address(frame, &relocation, symbol);
        return code == DWEXPR_LIBDW_AMBIGUOUS ? dwexpr_libdw_look_up(frame, &relocation, symbol) : code;
    }
    if (is_own) {
        if (may_be_elsewhere(module, &symbol->symbol))
            find_copy(frame->source.dwfl, symbol);
        return 0;
    }
    return dwexpr_libdw_find_symbol(module, 0, symbol) ? 0 : DWEXPR_LIBDW_FAILED;
}
