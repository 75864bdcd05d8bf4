"""What bash completes of a command line of bureau-client. It is made of the same tables by which the words are read."""
from . import run, words

FORM = """\
# What bash completes of bureau-client: `bureau-client completion` prints this. A shell takes it in by
#   . <(bureau-client completion)
_bureau_client() {
  local word=${COMP_WORDS[COMP_CWORD]} before=${COMP_WORDS[COMP_CWORD - 1]} at command="" options="" kinds=""
  for ((at = 1; at < COMP_CWORD; at++)); do
    case ${COMP_WORDS[at]} in
    %(pairs)s) at=$((at + 1)) ;;
    -*) ;;
    *) command=${COMP_WORDS[at]} && break ;;
    esac
  done
  case $command in
%(cases)s
  "") mapfile -t COMPREPLY < <(compgen -W "help %(commands)s" -- "$word") && return ;;
  esac
  case $before in
  %(files)s) mapfile -t COMPREPLY < <(compgen -f -- "$word") && return ;;
  %(others)s) COMPREPLY=() && return ;;
  esac
  if [[ $word == -* ]]; then
    mapfile -t COMPREPLY < <(compgen -W "$options" -- "$word")
    return
  fi
  # the zones whose lists were sent from here
  local zones=""
  [[ $kinds != *ZONE* ]] || zones=$(cd "${BUREAU_HOME:-$HOME/.bureau}" 2>/dev/null && find desks/*/sent/zones -type f -printf '%%f ' 2>/dev/null)
  mapfile -t COMPREPLY < <(compgen -W "$zones" -- "$word")
  [[ $kinds != *F* ]] || mapfile -t -O "${#COMPREPLY[@]}" COMPREPLY < <(compgen -f -- "$word")
}
complete -o filenames -F _bureau_client bureau-client
"""
FILES = ("since", "symptoms", "published", "xlsx")  # options with a file after them


def options_of(command):
    named = words.COMMANDS[command][2].split()
    return [*("--" + each for each in named), *(["--to"] if command not in words.LOCAL else [])]


def completion():
    """The command: it needs no desk."""
    commands = [each for each in words.COMMANDS if " " not in each]
    cases = []
    for command in commands:
        wants = words.COMMANDS[command][0]
        kinds = " ".join(each for each in ("ZONE", "FILE", "FOLDER") if each in wants)
        cases.append(f'  {command}) options="{" ".join(options_of(command))}" kinds="{kinds}" ;;')
    others = [each for each, has_word in words.OPTIONS.items() if has_word and each not in FILES]
    run.out(FORM % {
        "pairs": " | ".join("--" + each for each, has_word in words.OPTIONS.items() if has_word), "cases": "\n".join(cases),
        "commands": " ".join(commands), "files": " | ".join("--" + each for each in FILES), "others": " | ".join("--" + each for each in others),
    })
