# Completion of sdhring, sdhwatch, sdhoutage, sdhpath, sdhretime, sdhwhatif, sdhaps, sdhnode and the tools beside them, for
# bash: source it, or have `--install` put it in place.

_sdhring_words() {
  local program=${COMP_WORDS[0]##*/} word=${COMP_WORDS[COMP_CWORD]}
  COMPREPLY=()
  case $program:$COMP_CWORD:${COMP_WORDS[1]-} in
    sdhring:1:*) mapfile -t COMPREPLY < <(compgen -W "run check drop big $1" -- "$word") ;;
    sdhring:3:drop | sdhoutage:3:trace) mapfile -t COMPREPLY < <(compgen -W "a b" -- "$word") ;;
    sdhoutage:1:*) mapfile -t COMPREPLY < <(compgen -W "run trace $1" -- "$word") ;;
    sdhwatch:1:* | sdhpath:1:*) mapfile -t COMPREPLY < <(compgen -W "run $1" -- "$word") ;;
    sdhwhatif:1:*) mapfile -t COMPREPLY < <(compgen -W "single double triple $1" -- "$word") ;;
    sdhwhatif:*) mapfile -t COMPREPLY < <(compgen -W "degraded fibres spans nodes manual forced own part head json summary" -- "$word") ;;
    sdhaps:1:*) mapfile -t COMPREPLY < <(compgen -W "run node frames $1" -- "$word") ;;
    sdhaps:3:frames) mapfile -t COMPREPLY < <(compgen -W "west east" -- "$word") ;;
    sdhnode:2:*) mapfile -t COMPREPLY < <(compgen -W "frames lines" -- "$word") ;;
    sdhretime:1:* | sdhnode:1:*) mapfile -t COMPREPLY < <(compgen -W "$1" -- "$word") ;;
    *:2:--install | *:2:--uninstall) compopt -o dirnames ;;
    *:3:--install) mapfile -t COMPREPLY < <(compgen -W '--replace' -- "$word") ;;
  esac
  # After `<` comes the plan.
  [ "${COMP_WORDS[COMP_CWORD - 1]}" != '<' ] || { COMPREPLY=() && compopt -o default; }
}

_sdhring() {
  _sdhring_words '--prove --prove-all --install --uninstall --where --version --help'
}

_sdhring_tools() {
  local words word=${COMP_WORDS[COMP_CWORD]}
  case ${COMP_WORDS[0]##*/} in
    rows) words='--dir --jobs --list --help' ;;
    sdhring-explain) words='--first --status --name --version --help' ;;
    sdhring-report) words='--json --csv --nodes --plan --version --help' ;;
    sdhring-plan) words='new import --nodes --keep --table --rate --threshold --wait --limit --steps --to --version --help' ;;
    sdhring-availability) words='--nodes --groups --cuts-per-1000-km --without-script --csv --json --causes --version --help' ;;
    sdhring-bench) words='--instead --connect --more --within --keep --processes --program --all --json --version --help' ;;
    sdhring-capture) words='--node --side --rounds --frames --program --version --help' ;;
    sdhring-compare-node) words='--version --help' ;;
    sdhring-conform) words='--json --junit --list --page --keep --limit --only --short --program --version --help' ;;
    sdhring-desk) words='--to --title --depth --spans --nodes --groups --cuts-per-1000-km --teller --version --help' ;;
    sdhring-network) words='import whatif availability page add room --to --keep --threshold --wait --limit --dir --kinds --case --require --against --summary --teller --jobs --parts --part --sshlogin --parallel --slurm --cuts-per-1000-km --csv --json --causes --savings --title --version --help' ;;
    sdhring-now) words='--alarms --spans --page --json --title --without-script --fail-on --teller --version --help' ;;
    sdhring-view) words='--to --svg --outages --signalling --program --version --help' ;;
    sdhring-whatif) words='--also --works --title --without-script --kinds --dir --program --jobs --shard --sshlogin --parallel --all --depth --frames --groups --against --outages --require --teller --counter --spans --fail-on --anew --version --help' ;;
  esac
  mapfile -t COMPREPLY < <(compgen -W "$words" -- "$word")
  [ "${#COMPREPLY[@]}" -ne 0 ] || compopt -o default
}

complete -F _sdhring {,./}sdh{ring,watch,outage,path,retime,whatif,aps,node}
complete -F _sdhring_tools {,./}sdhring-{availability,bench,capture,compare-node,conform,desk,explain,network,now,plan,report,view,whatif}
# repository
complete -F _sdhring_tools {,./}tools/rows
# end
