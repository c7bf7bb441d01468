"""Writes the manual page and the shell completions of the program figpliers, from the command line that its source describes.

    python3 tools/shell_files.py            writes docs/shell
    python3 tools/shell_files.py --check    says which files there are not as it would write them

The description is crates/figpliers_program/src/command_line.rt: the calls that make commands, options and arguments, with their help."""
import re
import sys
from pathlib import Path

ROOT = Path(__file__).resolve().parent.parent
SOURCE = ROOT / "crates/figpliers_program/src/command_line.rt"
FOLDER = ROOT / "docs/shell"
TEXT = r'"((?:[^"\\]|\\.)*)"'


class Option:
    def __init__(self, name, value, help, short=None):
        self.name, self.value, self.help, self.short = name, value, help, short


class Command:
    def __init__(self, name, about, options, operands):
        self.name, self.about, self.options, self.operands = name, about, options, operands


def functions(source):
    """The bodies of the functions, by their names."""
    found = {}
    for match in re.finditer(r"\nfn (\w+)|\npub fn (\w+)", source):
        begin = source.index("\n{", match.end())
        found[match[1] or match[2]] = source[begin : source.index("\n}", begin)]
    return found


def options_in(body):
    """The options that a body makes, in their order."""
    made = [(m.start(), Option(m[1], None, m[2])) for m in re.finditer(rf"\bflag\(\s*alloc,\s*{TEXT},\s*{TEXT},?\s*\)", body)]
    made += [(m.start(), Option(m[1], m[2], m[3]))
             for m in re.finditer(rf"\b(?:option|several)\(\s*alloc,\s*{TEXT},\s*{TEXT},\s*{TEXT},?\s*\)", body)]
    made += [(m.start(), Option(m[1], None, m[2]))
             for m in re.finditer(rf"\.long\({TEXT}\)\s*\.action\(ArgAction::Help\)\s*\.help\({TEXT}\)", body)]
    for m in re.finditer(r"\.short\('(.)'\)", body):
        at = max((at for at, _ in made if at < m.start()), default=None)
        for place, option in made:
            if place == at:
                option.short = m[1]
    return [option for _, option in sorted(made, key=lambda it: it[0])]


def operands_in(body):
    """The arguments that are no options: what stands for one, whether it is required, and its help."""
    found = []
    for m in re.finditer(rf"Arg::new\(alloc, {TEXT}\)\s*\.value_name\({TEXT}\)(.*?)\.help\({TEXT}\)", body, re.S):
        found.append((m[2], ".required(true)" in m[3], m[4]))
    return found


def called(bodies, name, seen):
    """The functions that a body calls, and those that these call, in the order of the calls."""
    for m in re.finditer(r"\b(\w+)\(", bodies[name]):
        if m[1] in bodies and m[1] not in seen:
            seen.append(m[1])
            called(bodies, m[1], seen)
    return seen


def described(source):
    """The commands that the source describes."""
    bodies = functions(source)
    commands = []
    for name, body in bodies.items():
        made = [(m.start(), m[1], m[2], m[3]) for m in
                re.finditer(rf"\bover_pages\(\s*alloc,\s*{TEXT},\s*(?:{TEXT}|(about)),", body)]
        made += [(m.start(), m[1], m[2], None) for m in re.finditer(rf"Command::new\(alloc, {TEXT}\)\s*\.about\(\s*{TEXT},?\s*\)", body)
                 if name != "program"]
        for at, command, about, variable in sorted(made):
            if variable:
                about = re.search(rf"let about = {TEXT};", body)[1]
            parts = called(bodies, "over_pages" if len(made) > 1 else name, [])
            if len(made) == 1:
                parts.append(name)
            options = [option for part in parts for option in options_in(bodies[part])]
            operands = [operand for part in parts for operand in operands_in(bodies[part])]
            if not any(option.name == "help" for option in options):
                options.append(Option("help", None, "Print help", "h"))
            options.append(Option("version", None, "Print version", "V"))
            commands.append(Command(command, about, options, sorted(operands, key=lambda it: not it[1])))
    order = [m[1] for m in re.finditer(r"\.subcommand\((\w+)", bodies["with_plain"])]
    wanted = []
    for m in re.finditer(r"\.subcommand\((\w+)|(with_plain)\(", bodies["command_line"]):
        wanted += order if m[2] else [m[1]]
    known = {command.name: command for command in commands}
    if sorted(wanted) != sorted(known):
        sys.exit(f"{SOURCE}: the commands {sorted(known)} are not those that are added, {sorted(wanted)}")
    return [known[name] for name in wanted]


def program_words(source, call):
    return re.search(rf"\.{call}\(\s*{TEXT},?\s*\)", functions(source)["program"])[1]


def spelled(option):
    value = f" {option.value}" if option.value else ""
    return (f"-{option.short}, " if option.short else "") + f"--{option.name}{value}"


def usage(command):
    operands = "".join(f" {name}" if required else f" [{name}]" for name, required, _ in command.operands)
    return f"figpliers {command.name} [OPTION]..{operands}" + ("" if command.name == "tree" else "..")


# THE MANUAL PAGE

def roff(text):
    text = text.replace("\\", "\\e").replace("-", "\\-")
    return "\\&" + text if text[:1] in ".'" else text


def manual(commands, about, status):
    lines = [".\\\" Written by tools/shell_files.py.", '.TH FIGPLIERS 1 "" "figpliers 0.1.0"', ".SH NAME",
             roff(f"figpliers - {about[0].lower()}{about[1:]}"), ".SH SYNOPSIS"]
    for command in commands:
        lines += [f".B {roff(usage(command))}", ".br"]
    lines += [".SH DESCRIPTION",
              roff("Each command reads the HTML pages in the files that are named, or on standard input where none is named and for the "
                   "name -. The files after one that cannot be read are still read. The command clean has no name for standard input, "
                   "and reads no file after one that cannot be read.")]
    for command in commands:
        lines += [f".SH {command.name.upper()}", roff(command.about + ".")]
        for name, required, help in command.operands:
            lines += [".TP", f".B {roff(name)}", roff(help)]
        for option in command.options:
            lines += [".TP", f".B {roff(spelled(option))}", roff(option.help)]
    lines += [".SH EXIT STATUS", roff(status + ".")]
    return "\n".join(lines) + "\n"


# COMPLETIONS

def names(option):
    return ([f"-{option.short}"] if option.short else []) + [f"--{option.name}"]


def takes_file(option):
    return option.value == "FILE"


def bash(commands):
    lines = ["# Completions of figpliers for bash, written by tools/shell_files.py.", "_figpliers() {",
             "    local word=${COMP_WORDS[COMP_CWORD]} before=${COMP_WORDS[COMP_CWORD-1]} options=",
             "    if [ \"$COMP_CWORD\" -eq 1 ]; then",
             f"        COMPREPLY=($(compgen -W '{' '.join(command.name for command in commands)} --help --version' -- \"$word\"))",
             "        return", "    fi", "    case \"${COMP_WORDS[1]} $before\" in"]
    for command in commands:
        closed = [name for option in command.options if option.value and not takes_file(option) for name in names(option)]
        if closed:
            lines += ["        " + "|".join(f"'{command.name} {name}'" for name in closed) + ") return ;;"]
    lines += ["    esac", "    case \"${COMP_WORDS[1]}\" in"]
    for command in commands:
        every = " ".join(name for option in command.options for name in names(option))
        lines += [f"        {command.name}) options='{every}' ;;"]
    lines += ["    esac", "    case \"$word\" in",
              "        -*) COMPREPLY=($(compgen -W \"$options\" -- \"$word\")) ;;",
              "        *) COMPREPLY=($(compgen -f -- \"$word\")) ;;", "    esac", "}",
              "complete -o filenames -F _figpliers figpliers"]
    return "\n".join(lines) + "\n"


def quoted(text):
    return text.replace("'", "'\\''")


def zsh_text(text):
    return quoted(text.replace("\\", "\\\\").replace("[", "\\[").replace("]", "\\]").replace(":", "\\:"))


def zsh(commands):
    lines = ["#compdef figpliers", "# Completions of figpliers for zsh, written by tools/shell_files.py.", "_figpliers() {",
             "    local -a commands", "    commands=("]
    lines += [f"        '{command.name}:{zsh_text(command.about)}'" for command in commands]
    lines += ["    )", "    if (( CURRENT == 2 )); then", "        _describe command commands", "        return", "    fi",
              "    local command=$words[2]", "    shift words", "    (( CURRENT-- ))", "    case $command in"]
    for command in commands:
        lines += [f"        {command.name})", "            _arguments \\"]
        for option in command.options:
            value = f":{zsh_text(option.value)}:" + ("_files" if takes_file(option) else "") if option.value else ""
            for name in names(option):
                lines += [f"                '{name}[{zsh_text(option.help)}]{value}' \\"]
        for name, required, _ in command.operands:
            many = "" if required or command.name == "tree" else "*"
            lines += [f"                '{many}:{name}:" + ("_files" if name == "FILE" else "") + "' \\"]
        lines[-1] = lines[-1].removesuffix(" \\")
        lines += ["            ;;"]
    lines += ["    esac", "}", "_figpliers \"$@\""]
    return "\n".join(lines) + "\n"


def fish(commands):
    lines = ["# Completions of figpliers for fish, written by tools/shell_files.py."]
    for command in commands:
        lines += [f"complete -c figpliers -f -n __fish_use_subcommand -a {command.name} -d '{quoted(command.about)}'"]
    for command in commands:
        for option in command.options:
            line = f"complete -c figpliers -n '__fish_seen_subcommand_from {command.name}'"
            line += f" -s {option.short}" if option.short else ""
            line += f" -l {option.name}"
            if option.value:
                line += " -r" if takes_file(option) else " -x"
            lines += [line + f" -d '{quoted(option.help)}'"]
    return "\n".join(lines) + "\n"


def written():
    """The files that are to stand in the folder, with their texts."""
    source = SOURCE.read_text(encoding="utf-8")
    commands = described(source)
    return {
        "figpliers.1": manual(commands, program_words(source, "about"), program_words(source, "after_help")),
        "figpliers.bash": bash(commands),
        "_figpliers": zsh(commands),
        "figpliers.fish": fish(commands),
    }


def stale():
    """The names of those files that are missing or other than they are to be."""
    return [name for name, text in written().items()
            if not (FOLDER / name).is_file() or (FOLDER / name).read_text(encoding="utf-8") != text]


def main():
    if sys.argv[1:] == ["--check"]:
        names = stale()
        for name in names:
            print(f"docs/shell/{name} is not what tools/shell_files.py writes")
        sys.exit(1 if names else 0)
    FOLDER.mkdir(exist_ok=True)
    for name, text in written().items():
        (FOLDER / name).write_text(text, encoding="utf-8")


if __name__ == "__main__":
    main()
