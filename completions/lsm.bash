# Completion of lsm for bash. Made by tools/manual.py from the help of the program.
_lsm() {
  local current=${COMP_WORDS[COMP_CWORD]} command= options= places= place=0 index word kind
  COMPREPLY=()
  if ((COMP_CWORD == 1)); then
    COMPREPLY=($(compgen -W 'mktable dump manifest script check list levels get scan ingest put delete load import recover repair compact clean shell bench help --help --version' -- "$current"))
    return
  fi
  command=${COMP_WORDS[1]}
  case $command in
    mktable) options='--help' places='FILE' ;;
    dump) options='--help' places='FILE' ;;
    manifest) options='--help' places='FILE' ;;
    script) options='--help' places='FILE' ;;
    check) options='--workers --logs --inflate --strict --compare --progress --wait --help' places='DIR' ;;
    list) options='--text --logs --inflate --quick --strict --compare --wait --help' places='DIR' ;;
    levels) options='--text --files --svg --strict --help' places='DIR' ;;
    get) options='--text --raw --exists --logs --inflate --quick --strict --compare --wait --help' places='DIR KEY' ;;
    scan) options='--from --to --prefix --limit --text --keys --json --count --logs --inflate --quick --strict --compare --progress --wait --help' places='DIR' ;;
    ingest) options='--text --begin --beside-log --recover --quick --strict --compare --wait --help' places='DIR FILE' ;;
    put) options='--text --begin --beside-log --recover --quick --strict --compare --wait --help' places='DIR KEY VALUE' ;;
    delete) options='--text --begin --beside-log --recover --quick --strict --compare --wait --help' places='DIR KEY' ;;
    load) options='--text --begin --beside-log --recover --workers --from-line --last-line --json --strict --compare --progress --wait --help' places='DIR FILE' ;;
    import) options='--to-first-fault --compare --help' places='SRC DST' ;;
    recover) options='--to-first-fault --strict --compare --wait --help' places='DIR' ;;
    repair) options='--compare --wait --help' places='DIR' ;;
    compact) options='--all --from --to --text --workers --accept-rest --strict --compare --progress --wait --help' places='DIR' ;;
    clean) options='--accept-rest --strict --wait --help' places='DIR' ;;
    shell) options='--text --begin --beside-log --recover --workers --bail --read-only --strict --compare --wait --help' places='DIR' ;;
    bench) options='--benchmarks --num --value-size --workers --help' places='DIR' ;;
    help) options='--help' places='COMMAND' ;;
    *) return ;;
  esac
  for ((index = 2; index < COMP_CWORD; index++)); do
    word=${COMP_WORDS[index]}
    case $word in
      --benchmarks|--from|--from-line|--limit|--num|--prefix|--to|--value-size|--wait|--workers)
        # Bash takes `=` for a word of its own.
        ((index++))
        [[ ${COMP_WORDS[index]-} != = ]] || ((index++))
        ;;
      --*) ;;
      *) ((place++)) ;;
    esac
  done
  # The word behind an option that wants a value is not completed.
  ((index == COMP_CWORD)) || return
  if [[ $current == -* ]]; then
    COMPREPLY=($(compgen -W "$options" -- "$current"))
    return
  fi
  # Paths alone are file names: blanks in them are quoted, and a slash stands behind a folder. So a
  # command stays one where a folder has its name.
  kind=$(set -- $places; shift "$place" 2> /dev/null && echo "${1-}")
  case $kind in
    DIR | SRC | DST) compopt -o filenames 2> /dev/null; mapfile -t COMPREPLY < <(compgen -d -- "$current") ;;
    FILE) compopt -o filenames 2> /dev/null; mapfile -t COMPREPLY < <(compgen -f -- "$current") ;;
    COMMAND) COMPREPLY=($(compgen -W 'mktable dump manifest script check list levels get scan ingest put delete load import recover repair compact clean shell bench help' -- "$current")) ;;
    *) COMPREPLY=($(compgen -W "$options" -- "$current")) ;;
  esac
}
complete -F _lsm lsm
