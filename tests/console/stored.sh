# The stored cases: every run of tests/situations.py, every table of tests/tables.py, every question, and assemble of each dump.
. "$root/tests/console/stored_cases.sh"
group 'stored runs: status, listing, words and table; assemble of each dump'
each stored_run "$stored"/run.*.table
end
export ASAN_OPTIONS=detect_leaks=0 # looked for above, and it takes the better part of a short run
group 'stored tables: the number of the check'
each stored_check "$stored"/check.*.table
end
group 'stored questions: yes, no or the number'
[ "$pass" != sanitized ] || stride=5 # a sanitized program takes its time to begin; the other one is asked all of them
each_question "$stored/questions"
end
group 'stored questions: those about one table in a roll call'
each_roll_call "$stored/questions"
end
unset ASAN_OPTIONS
