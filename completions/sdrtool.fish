# fish completion for sdrtool: a disk, then a form
function __sdrtool_at
    test (count (commandline -opc)) -eq $argv[1]
end
function __sdrtool_dry
    __sdrtool_at 2; and not contains -- (commandline -opc)[2] --help --version
end
function __sdrtool_run
    __sdrtool_at 3; and test (commandline -opc)[3] = run; and test (commandline -opc)[2] != -
end
function __sdrtool_form
    __sdrtool_dry; and test (commandline -opc)[2] != -
end
complete -c sdrtool -n 'not __sdrtool_at 1' -f
complete -c sdrtool -n '__sdrtool_at 1' -l help -d 'the forms and the statuses'
complete -c sdrtool -n '__sdrtool_at 1' -l version -d 'the version'
complete -c sdrtool -n '__sdrtool_at 1' -a - -d 'an empty disk in memory, for dry'
complete -c sdrtool -n __sdrtool_form -a format -d 'makes an empty heap of the disk'
complete -c sdrtool -n __sdrtool_form -a replay -d 'runs the script of standard input on the heap'
complete -c sdrtool -n __sdrtool_form -a run -d 'runs the daemons of the script side by side on the heap'
complete -c sdrtool -n __sdrtool_run -a totals -d 'prints a line of totals behind the journal'
complete -c sdrtool -n __sdrtool_form -a load -d 'runs a generated load on the heap, and sums it up'
complete -c sdrtool -n __sdrtool_form -a inspect -d 'prints the world that the disk keeps'
complete -c sdrtool -n __sdrtool_form -a recover -d 'puts back what a crash cut short'
complete -c sdrtool -n __sdrtool_dry -a dry -d 'runs the script of standard input with no disk'
