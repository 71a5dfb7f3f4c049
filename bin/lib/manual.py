"""Makes a manual page or the completions for bash of a program from what its `--help` prints:
`PROGRAM --help | python3 bin/lib/manual.py page|completions NAME VERSION`."""
import re
import sys

# The sections of a manual page, in order; a help has those in small letters under other titles too.
ORDER = ["ARGUMENTS", "MODES", "OPTIONS", "EXIT STATUS", "EXAMPLES"]
PROGRAMS = ["ascii_filter", "ascii_show"]


def parse(text):
    """The first line, the usage, and by section what it has: entries, pairs of what is given and its description, and
    sentences, which are texts."""
    about, usage, sections, section = "", "", {}, None
    for line in text.splitlines():
        if line.startswith("Usage: "):
            usage = line.removeprefix("Usage: ")
        elif re.fullmatch(r"[A-Z][a-z ]+:", line):
            section = sections.setdefault(line.rstrip(":"), [])
        elif section is not None and line.startswith("  "):
            given, description = re.fullmatch(r"(.*?)(?:  +(.*))?", line.strip()).groups()
            section.append((given, description or ""))
        elif section is not None and line:
            section.append(line)
        elif line and not about:
            about = line
    return about, usage, sections


def values_of(sections):
    """The possible values of the first argument: the first words of the modes."""
    return list(dict.fromkeys(given.split()[0] for given, _ in sections.get("Modes", []) if given))


def roff(text):
    """A line of text. A dash, a backslash, a quote and an accent are themselves, as is a dot at the start."""
    for character, escape in (("\\", "\\e"), ("-", "\\-"), ("'", "\\(aq"), ("`", "\\(ga"), ("^", "\\(ha"), ("~", "\\(ti")):
        text = text.replace(character, escape)
    return "\\&" + text if text.startswith(".") else text


def page(name, version, text):
    """The manual page, in roff."""
    about, usage, sections = parse(text)
    about = about.rstrip(".")
    lines = [f'.TH {name.upper()} 1 "" "{name} {version}"', ".SH NAME", f"{name} \\- {roff(about[0].lower() + about[1:])}"]
    lines += [".SH SYNOPSIS", f".B {name}", roff(usage.removeprefix(name).strip())]
    lines += [".SH DESCRIPTION", f"{roff(about)}.", "A line on standard error says what is wrong with an input or with the arguments."]
    titles = {title.upper(): entries for title, entries in sections.items()}
    for title in ORDER:
        if title in titles:
            lines.append(f".SH {title}")
        for entry in titles.get(title, []):
            lines += [".PP", roff(entry)] if isinstance(entry, str) else [".TP", f".B {roff(entry[0])}", roff(entry[1])]
    others = [f".BR {other} (1)" for other in [*PROGRAMS, "cat", "iconv", "tr"] if other != name]
    lines += [".SH SEE ALSO", ",\n".join(others)]
    return "\n".join(lines) + "\n"


def completions(name, text):
    """The completions for bash: a mode as the first word that is not an option, then files; options anywhere. A name may have
    spaces."""
    _, _, sections = parse(text)
    given = " ".join(given for given, _ in filter(lambda entry: not isinstance(entry, str), sections.get("Options", [])))
    options = re.findall(r"--[a-z-]+", given)
    valued = "|".join(re.findall(r"-\w(?=, --[a-z-]+ <)", given) + re.findall(r"--[a-z-]+(?= <)", given)) or "''"
    return f"""\
# Completions of {name} for bash.
_{name}() {{
  local word=${{COMP_WORDS[COMP_CWORD]}} before=${{COMP_WORDS[COMP_CWORD - 1]}} mode="" k
  for ((k = 1; k < COMP_CWORD; k++)); do
    case ${{COMP_WORDS[k]}} in
      {valued}) ((k++)) ;;
      -?*) ;;
      *) mode=${{COMP_WORDS[k]}}; break ;;
    esac
  done
  COMPREPLY=()
  case $before in {valued}) ((COMP_CWORD > 1)) && return ;; esac
  if [[ $word == -* ]]; then
    mapfile -t COMPREPLY < <(compgen -W "{' '.join(options)}" -- "$word")
  elif [[ -z $mode ]]; then
    mapfile -t COMPREPLY < <(compgen -W "{' '.join(values_of(sections))}" -- "$word")
  else
    mapfile -t COMPREPLY < <(compgen -f -- "$word")
  fi
}}
complete -o filenames -F _{name} {name}
"""


def main():
    kind, name, *version = sys.argv[1:]
    text = sys.stdin.read()
    print(page(name, version[0], text) if kind == "page" else completions(name, text), end="")


if __name__ == "__main__":
    main()
