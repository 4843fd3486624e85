# The toolchain's own definitions in a table of imports (file, module, name): by the module that declares them its file, and each name with
# its line there. `home` is the toolchain's folder; the antt-project.json of its logic says where a library's modules stand. Modules pass
# names on, and whole modules, by `pub use`; a type that code declares stands in that code. `Prim` is built in where it has no file.

function library_folder(path,    line, quoted, source) {
    source = "src"
    while ((getline line < (path "/antt-project.json")) > 0) if (split(line, quoted, "\"") > 4 && quoted[2] == "src") source = quoted[4]
    close(path "/antt-project.json")
    return path "/" source
}
# the file where a module would stand, from `home`; the empty text for one of no known library
function module_file(module,    part, n, path, i) {
    n = split(module, part, ".")
    if (part[1] == "Rattle") { path = "rattle/" part[2] "/" part[3]; i = 4 }
    else if (part[1] in folder) { path = folder[part[1]]; i = 2 }
    else return ""
    if (i > n) return path "/Lib.antt"
    for (; i <= n; i++) path = path "/" part[i]
    return path ".antt"
}
# the first line of a file that declares each name, and what the file passes on; its count of lines
function read_file(file,    line, more, number, n, i, name, whole, from) {
    if (file in lines) return lines[file]
    while ((getline line < (home "/" file)) > 0) {
        number++
        if (line ~ /^(unfoldable )?pub use /) {
            # a list of names may go on in the next lines
            while (line ~ /\{[^}]*$/ && (getline more < (home "/" file)) > 0) { number++; line = line " " more }
            whole = used_module(line)
            n = used_names(line, name)
            for (i = 1; i <= n; i++) {
                from = name[i]
                sub(/^ +/, "", from)
                sub(/ +$/, "", from)
                if (match(from, / as /)) { name[i] = substr(from, RSTART + 4); from = substr(from, 1, RSTART - 1) } else name[i] = from
                passed[file, name[i]] = whole SUBSEP from
            }
            if (!n) { from = line; sub(/;$/, "", from); sub(/.*[. ]/, "", from); module_passed[file, from] = whole }
            continue
        }
        name[n = 1] = declared(line)
        # constructors alike, in one line: `false true : Bool`
        if (line ~ /^ +[^ (){}=]+( [^ (){}=]+)+ : /) n = split(substr(line, 1, index(line, " : ")), name, " ")
        # a field may have the name of a definition that stands further down, not indented
        for (i = 1; i <= n; i++) if (!((file, name[i]) in at) || line ~ /^[^ ]/ && !((file, name[i]) in outer)) {
            at[file, name[i]] = number
            if (line ~ /^[^ ]/) outer[file, name[i]]
        }
    }
    close(home "/" file)
    return lines[file] = number + 0
}
# the module that stands in a file, which a module passes on as its own; the empty text if there is none
function real_module(module,    above, last, file) {
    file = module_file(module)
    if (file != "" && read_file(file)) return module
    if (module !~ /\./) return ""
    above = last = module
    sub(/\.[^.]*$/, "", above)
    sub(/.*\./, "", last)
    above = real_module(above)
    if (above == "" || !((module_file(above), last) in module_passed)) return ""
    return real_module(module_passed[module_file(above), last])
}
# a type or variant that code of the toolchain declares: its file and line into `where` and `row`
function find_in_code(module, name,    part, n, i, path, type, line, number) {
    n = split(module, part, ".")
    path = "rattle/" part[2] "/src"
    for (i = 5; i <= n && part[i] ~ /^[a-z]/; i++) path = path "/" part[i]
    type = part[i]
    path = path ".rt"
    row = 0
    while ((getline line < (home "/" path)) > 0) {
        number++
        if (line ~ ("^ *(pub )?(enum|struct) " type "[^A-Za-z0-9_]")) { inside = 1; if (name == type) { row = number; break } }
        else if (inside && line ~ ("^ +" name "[^A-Za-z0-9_]")) { row = number; break }
        else if (line ~ /^}/) inside = 0
    }
    inside = 0
    close(home "/" path)
    where = path
    return row
}
# where a name of a module is declared: the module into `home_module`, its file and line into `where` and `row`, the name there into `own_name`
function find(module, name,    real, file, pair) {
    if (module ~ /^Rattle\.[^.]*\.specs\.declared\./) { home_module = module; own_name = name; return find_in_code(module, name) }
    if (module ~ /^Prim/) { home_module = module; where = "built in"; own_name = name; row = 0; return 1 }
    real = real_module(module)
    if (real == "") { fault("no file for the toolchain's module " module); return 0 }
    file = module_file(real)
    if ((file, name) in at) { home_module = real; where = file; own_name = name; return row = at[file, name] }
    if ((file, name) in passed) { split(passed[file, name], pair, SUBSEP); return find(pair[1], pair[2]) }
    fault(file ": the definition of " name " was not found there")
    return 0
}
BEGIN {
    FS = "\t"
    while ((getline line < (home "/rattle/logic/antt-project.json")) > 0) {
        if (line ~ /"mounts"/) mounts = 1
        if (!mounts || split(line, quoted, "\"") < 5) continue
        path = "rattle/logic/" quoted[4]
        while (sub(/[^\/]+\/\.\.\//, "", path)) continue
        folder[quoted[2]] = library_folder(home "/" path)
        sub("^" home "/", "", folder[quoted[2]])
        sub(/\/\.$/, "", folder[quoted[2]])
    }
}
is_own($2) || ($2, $3) in seen { next }
{
    seen[$2, $3]
    if (!find($2, $3)) next
    if (!(home_module in names)) { module[++count] = home_module; file_at[home_module] = where }
    if (!((home_module, own_name) in told)) names[home_module] = names[home_module] " " own_name (row ? ":" row : "")
    told[home_module, own_name]
}
END { for (k = 1; k <= count; k++) printf "   %-20s %s\n       %s\n", module[k], file_at[module[k]], substr(names[module[k]], 2) }
