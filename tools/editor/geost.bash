# Completion of geost's words in bash: source this file from ~/.bashrc.

# What may stand next, behind the words so far.
_geost_next() { # the words behind `geost`, without the one that is completed
  local steps="100 1000 10000 100000 1000000"
  case $# in
  0) echo "first all judge check best check_best why load to_json from_json first_json show draw make spread help prove --version --program --proved" ;;
  1)
    case $1 in
    first | why | first_json) echo "$steps" ;;
    all) echo "10 100 1000" ;;
    make) echo "0 1 2147483647" ;;
    best | check_best | load) echo "1 2 3" ;;
    esac
    ;;
  2)
    case $1 in
    all | best) echo "$steps" ;;
    make) echo "8 160 100000" ;;
    check_best) echo "1 10 100" ;;
    esac
    ;;
  esac
}

_geost() {
  local next
  next=$(_geost_next "${COMP_WORDS[@]:1:COMP_CWORD-1}")
  COMPREPLY=($(compgen -W "$next" -- "${COMP_WORDS[COMP_CWORD]}"))
}

complete -o default -F _geost geost ./geost
