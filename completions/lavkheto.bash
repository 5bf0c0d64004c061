# Completions of lavkheto for bash. Written by tools/help_files.py from the help texts; an edit here is lost.
# shellcheck shell=bash

_lavkheto_words() {
    mapfile -t COMPREPLY < <(compgen -W "$1" -- "$cur")
}

# (the last name of a list with commas)
_lavkheto_list() {
    local front=''
    [[ $cur == *,* ]] && front=${cur%,*},
    mapfile -t COMPREPLY < <(compgen -P "$front" -W "$1" -- "${cur##*,}")
}

_lavkheto_rules() {
    _lavkheto_list "$_lavkheto_rule_names"
}

# (rules and hazards)
_lavkheto_codes() {
    _lavkheto_list "$_lavkheto_rule_names $_lavkheto_hazard_names"
}

# (files of a pattern, or all files; and folders)
_lavkheto_files() {
    compopt -o filenames
    mapfile -t COMPREPLY < <({ compgen -f ${1:+-X "!$1"} -- "$cur"; compgen -d -- "$cur"; } | sort -u)
}

_lavkheto() {
    local cur=${COMP_WORDS[COMP_CWORD]} before=${COMP_WORDS[COMP_CWORD - 1]} command=${COMP_WORDS[1]}
    # (bash takes `--word=value` for three words)
    if [[ $cur == = ]]; then
        cur=''
    elif [[ $before == = ]]; then
        before=${COMP_WORDS[COMP_CWORD - 2]}
    fi
    COMPREPLY=()
    if ((COMP_CWORD == 1)); then
        _lavkheto_words 'check fix gate explain server --help --version'
        return
    fi
    case $command:$before in
    check:--format) _lavkheto_words 'text concise gcc github json sarif gitlab'; return ;;
    check:--color) _lavkheto_words 'auto always never'; return ;;
    check:--stdin-filename) :; return ;;
    check:--config) _lavkheto_files; return ;;
    check:--fail-on) _lavkheto_words 'warning never'; return ;;
    check:--baseline) _lavkheto_files; return ;;
    check:--only) _lavkheto_codes; return ;;
    check:--include) _lavkheto_codes; return ;;
    check:--exclude) _lavkheto_codes; return ;;
    check:--non-volatile) :; return ;;
    check:--pg-major) :; return ;;
    check:--pg-minor) :; return ;;
    check:--pg-patch) :; return ;;
    fix:--config) _lavkheto_files; return ;;
    fix:--only) _lavkheto_rules; return ;;
    fix:--include) _lavkheto_rules; return ;;
    fix:--exclude) _lavkheto_rules; return ;;
    fix:--non-volatile) :; return ;;
    fix:--pg-major) :; return ;;
    fix:--pg-minor) :; return ;;
    fix:--pg-patch) :; return ;;
    gate:--order) _lavkheto_words 'given name'; return ;;
    gate:--include) _lavkheto_rules; return ;;
    gate:--non-volatile) :; return ;;
    gate:--pg-major) :; return ;;
    gate:--pg-minor) :; return ;;
    gate:--pg-patch) :; return ;;
    server:--only) _lavkheto_codes; return ;;
    server:--include) _lavkheto_codes; return ;;
    server:--exclude) _lavkheto_codes; return ;;
    server:--non-volatile) :; return ;;
    server:--pg-major) :; return ;;
    server:--pg-minor) :; return ;;
    server:--pg-patch) :; return ;;
    esac
    case $command:$cur in
    check:-*) _lavkheto_words '--format --color --quiet --statistics --stdin-filename --config --fail-on --baseline --write-baseline --strict -- --only --include --exclude --no-hazards --non-volatile --assume-in-transaction --pg-major --pg-minor --pg-patch -h --help -V --version' ;;
    check:*) _lavkheto_files '*.sql' ;;
    fix:-*) _lavkheto_words '--write --unsafe --config -- --only --include --exclude --non-volatile --assume-in-transaction --pg-major --pg-minor --pg-patch -h --help' ;;
    fix:*) _lavkheto_files '*.sql' ;;
    gate:-*) _lavkheto_words '--order --works --one-session -- --include --non-volatile --assume-in-transaction --pg-major --pg-minor --pg-patch -h --help' ;;
    gate:*) _lavkheto_files '*.sql' ;;
    explain:-*) _lavkheto_words '-h --help' ;;
    explain:*) _lavkheto_codes ;;
    server:-*) _lavkheto_words '--only --include --exclude --no-hazards --non-volatile --assume-in-transaction --pg-major --pg-minor --pg-patch --stdio -h --help' ;;
    server:*) : ;;
    esac
}

_lavkheto_rule_names='
require-concurrent-index-creation
require-concurrent-index-deletion
require-concurrent-reindex
ban-concurrent-index-creation-in-transaction
ban-drop-index
constraint-missing-not-valid
adding-foreign-key-constraint
adding-serial-primary-key-field
disallowed-unique-constraint
adding-not-nullable-field
ban-new-write-restriction
ban-drop-constraint
ban-drop-not-null
ban-create-domain-with-constraint
ban-alter-domain-with-add-constraint
changing-column-type
adding-field-with-default
adding-required-field
ban-add-column
ban-drop-column
ban-drop-default
ban-set-default
ban-alter-identity
ban-drop-generated-expression
ban-alter-generated-expression
prefer-bigint-over-int
prefer-bigint-over-smallint
prefer-identity
prefer-text-field
prefer-timestamp-tz
ban-char-field
require-enum-value-ordering
ban-add-enum-value
ban-add-composite-attribute
ban-drop-database
ban-drop-table
ban-drop-view
ban-drop-function
ban-drop-type
ban-drop-trigger
ban-drop-schema
ban-drop-sequence
ban-drop-domain
ban-drop-extension
ban-truncate-cascade
require-concurrent-partition-detach
ban-detach-inheritance
renaming-column
renaming-table
renaming-object
ban-set-schema
ban-disable-trigger
ban-replica-identity
ban-replace-view-function
ban-revoke
ban-create-policy
ban-drop-policy
ban-alter-policy-condition
ban-alter-policy-roles
ban-alter-row-level-security
ban-alter-role-options
ban-alter-function-options
ban-alter-view-options
ban-alter-database-options
ban-alter-system-options
ban-alter-extension
ban-alter-sequence-values
prefer-robust-stmts
transaction-nesting
ban-uncommitted-transaction
require-lock-timeout
require-statement-timeout
prefer-repack
require-table-schema
identifier-too-long
ban-duplicate-column-assignments
require-timeout-settings
'
_lavkheto_hazard_names='
statement-in-transaction
table-rewrite
column-with-check
build-under-timeout
invalid-index-kept
refresh-blocks-reads
json-column
'
complete -F _lavkheto lavkheto
