#!/usr/bin/env bash
# Talks to `edit` over pipes as an editor does: each line is sent when the reply to the one before has come, so that a program which
# held replies back would be waited for in vain. It puts in paragraphs of 100 bytes, 20,000 of them or as many as the first word says,
# checks and shows them, then edits one after another, 1,000 times or as often as the second word says, and has it checked and shown
# after each edit. At last it sends a line with the first half of the next one, and that half's rest when the reply has come. Prints a
# table: the microseconds from sending a line to the end of its reply, the median and the most; and behind it the processor seconds and
# the most memory of the program.
# `console.sh --workers N PARAGRAPHS EDITS RULES` measures `edit` beside workers, on paragraphs of 51 bytes with two words that take some
# time, a tenth of a millisecond or so each by 1,000 compound rules, or more by as many as are said. They are put in, and a load has them
# all wait at once. Without workers and with N, so many letters are typed from then on, each when the reply to the one before has come;
# and with N once more when all are checked. A first table has the microseconds from sending a letter to the end of its reply; the processor
# time that the console's own thread took for it, in the mean; and how many paragraphs waited still behind the last letter. A second one has
# how long it takes, without letters, from the reply to the load until all are checked: by `settle` without workers, and by 1, 2, 4 and so
# on up to N until all are shown so, where the last paragraph is looked at each 10 milliseconds; the processor time of the whole program
# meanwhile, and the most memory.
# Ends with status 1 where a reply is another one than is wanted, or does not come within a minute. Needs perl.
set -euo pipefail
top=$(cd "$(dirname "$0")/.." && pwd)
work=$(mktemp -d)
trap 'rm -rf "$work"' EXIT
workers=none
if [ "${1:-}" = --workers ]; then
    workers=$2
    shift 2
fi

cat > "$work/talk.pl" << 'PERL'
use strict;
use warnings;
use IPC::Open2;
use Time::HiRes qw(sleep time);

our ($pid, $replies, $lines, %times, @kinds);

sub fail {
    print STDERR "console: @_\n";
    exit 1;
}
$SIG{ALRM} = sub { fail('no reply within a minute') };
# A program that has ended is seen by the reply that is missing.
$SIG{PIPE} = 'IGNORE';

sub start_program {
    $pid = open2($replies, $lines, @_);
    $lines->autoflush(1);
}

sub reply_to {
    my ($line) = @_;
    alarm 60;
    my $reply = <$replies> // fail("no reply to $line");
    alarm 0;
    return $reply;
}

# Sends a line, and has this reply come to it, which is read up to its own end and looked at only where one is given.
sub ask {
    my ($kind, $line, $wanted) = @_;
    # `show` is replied to with lines of which the last is a dot.
    local $/ = $line eq 'show' ? "\n.\n" : "\n";
    my $from = time;
    print $lines "$line\n";
    my $reply = reply_to($line);
    my $time = 1e6 * (time - $from);
    push @kinds, $kind if !$times{$kind};
    push @{$times{$kind}}, $time;
    fail("to $line came:\n$reply") if defined $wanted and $reply ne $wanted;
    return $reply;
}

sub quit_program {
    print $lines "quit\n";
    alarm 60;
    my $more = <$replies>;
    fail("behind quit came:\n$more") if defined $more;
    waitpid $pid, 0;
    alarm 0;
    fail("the program ended with $?") if $? != 0;
}

# How often a kind of line was sent, and the median and the most of its microseconds.
sub row_of {
    my ($kind) = @_;
    my @sorted = sort { $a <=> $b } @{$times{$kind}};
    return sprintf '%s | %d | %.0f μs | %.0f μs', $kind, scalar @sorted, $sorted[@sorted / 2], $sorted[-1];
}
1;
PERL

cat > "$work/editor" << 'PERL'
use strict;
use warnings;

my ($program, $work, $count, $edits) = @ARGV;
require "$work/talk.pl";
our ($replies, $lines, @kinds);
start_program(qw(/usr/bin/time -q -f), '%U %S %M', '-o', "$work/said", $program, 'edit', "$work/a.aff", "$work/a.dic");

my $text = 'paragraph ' x 9 . 'hello word';
my $version = 0;
ask('the program starts', 'show', "text 0 dict 0\n.\n");
for my $place (1 .. $count) {
    $version++;
    ask('a paragraph is put in at the end', "ins $place $text", "ok $version\n");
}
ask('all are checked', 'settle', "ok $version\n");
my %marks = map { $_ => '96 100 word' } 1 .. $count;
sub shown {
    my $marked = join '', map { defined $marks{$_} ? "$_ $marks{$_}\n" : '' } 1 .. $count;
    return "text $version dict 0\n$marked.\n";
}
ask('all are shown', 'show', shown());
for my $edit (1 .. $edits) {
    my $place = 1 + ($edit * 7919) % $count;
    $version++;
    my ($to, $put) = defined $marks{$place} ? (100, 'hello') : (101, 'word');
    ask('a word is replaced', "sub $place 96 $to $put", "ok $version\n");
    $marks{$place} = $put eq 'hello' ? undef : '96 100 word';
    ask('the one paragraph is checked', 'settle', "ok $version\n");
    my $is_compared = $edit % 100 == 0 || $edit == $edits;
    ask('all are shown behind an edit', 'show', $is_compared ? shown() : undef);
}
for my $piece ("settle\nset", "tle\n") {
    print $lines $piece;
    my $reply = reply_to($piece);
    fail("to $piece came:\n$reply") if $reply ne "ok $version\n";
}
quit_program();
print "| what is asked | times | median | most |\n|---|---|---|---|\n";
print '| ', row_of($_), " |\n" for @kinds;
PERL

cat > "$work/typist" << 'PERL'
use strict;
use warnings;
use Time::HiRes qw(sleep time);

my ($program, $work, $most, $count, $edits, $rules) = @ARGV;
require "$work/talk.pl";
our ($pid, $replies, $lines);
my @pair = ("$work/rules.aff", "$work/rules.dic");
my (@texts, $version);

sub syllable { my ($j) = @_; return substr('bdfgklmnrt', int($j / 5), 1) . substr('aeiou', $j % 5, 1) }
sub stem { my $i = $_[0] % 20000; return syllable($i % 50) . syllable(int($i / 50) % 50) . syllable(int($i / 2500) % 50) }

# 20,000 entries with one flag, and rules that begin with it and never end.
sub write_dictionary {
    write_file($pair[0], "FLAG num\nCOMPOUNDRULE $rules\n", map { "COMPOUNDRULE (1)($_)*(" . ($_ + 1) . ")\n" } 2 .. $rules + 1);
    write_file($pair[1], "20000\n", map { stem($_) . "/1\n" } 0 .. 19999);
}

sub write_file {
    my ($name, @lines) = @_;
    open my $file, '>', $name or fail("$name: $!");
    print $file @lines;
    close $file or fail("$name: $!");
}

# Two words of the dictionary, and between and behind them two of three stems each, which are none.
sub text_of {
    my ($k) = @_;
    my @stems = map { stem($k * $_) } 7919, 104729, 1299709, 1, 15485863, 49979687, 86028121, 3;
    return "$stems[0] $stems[1]$stems[2]$stems[3] $stems[4] $stems[5]$stems[6]$stems[7]";
}

# What `show` prints of a paragraph that is checked. Letters are typed behind its last word.
sub marks_of {
    my ($place) = @_;
    my $text = $texts[$place];
    return sprintf "%d 7 25 %s\n%d 33 %d %s\n", $place, substr($text, 7, 18), $place, length $text, substr($text, 33);
}

# The program with all paragraphs put in, many at once, and all of them waiting.
sub start {
    my ($workers) = @_;
    start_program($program, 'edit', @pair, $workers eq 'none' ? () : ('--workers', $workers));
    @texts = ('', map { text_of($_) } 1 .. $count);
    my $sent = 0;
    while ($sent < $count) {
        my $last = $sent + 500 < $count ? $sent + 500 : $count;
        print $lines join '', map { "ins $_ $texts[$_]\n" } $sent + 1 .. $last;
        while ($sent < $last) {
            $sent++;
            my $reply = reply_to('ins');
            fail("to ins $sent came:\n$reply") if $reply ne "ok $sent\n";
        }
    }
    $version = $count;
    ask('load', "load @pair", "dict 1\n");
}

# Waits until the last paragraph is checked, to which workers come last, and shows all until none waits. A look at one costs them little.
sub wait_for_workers {
    while ((my $reply = ask('stop', "stop $count")) ne "no Finished\n") {
        fail("to stop came:\n$reply") if $reply ne "ok $version\n";
        ask('ask', "ask $count", "ok $version\n");
        sleep 0.01;
    }
    while (ask('show', 'show') =~ / \?\n/) { sleep 0.001 }
}

# Shows all, and gives how many wait. What is shown of the others has to be right.
sub count_waiting {
    my ($header, @shown) = split /(?<=\n)/, ask('show', 'show');
    fail("to show came:\n$header") if $header ne "text $version dict 1\n";
    my ($waiting, $at) = (0, 0);
    for my $place (1 .. $count) {
        if ($shown[$at] eq "$place ?\n") {
            $waiting++;
            $at++;
        } else {
            my $marks = marks_of($place);
            my $came = $shown[$at] . $shown[$at + 1];
            fail("of paragraph $place came:\n$came in place of:\n$marks") if $came ne $marks;
            $at += 2;
        }
    }
    fail("behind all paragraphs came:\n$shown[$at]") if $shown[$at] ne ".\n";
    return $waiting;
}

# The nanoseconds of the processor that the thread which waits for input has had, by Linux; undefined where that is not told.
sub own_time {
    sleep 0.001;
    for my $task (glob "/proc/$pid/task/*") {
        my ($call, $first) = split ' ', read_file("$task/syscall");
        next if ($call // '') ne '0' or $first ne '0x0';
        return (split ' ', read_file("$task/schedstat"))[0];
    }
    return undef;
}

sub read_file {
    my ($name) = @_;
    open my $file, '<', $name or return '';
    return join '', <$file>;
}

# Types letters, one after another, each behind another paragraph. Gives the microseconds of the console's own thread for one.
sub type_letters {
    my ($kind) = @_;
    my $before = own_time();
    for my $edit (1 .. $edits) {
        my $place = 1 + ($edit * 7919) % $count;
        my $end = length $texts[$place];
        $version++;
        ask($kind, "sub $place $end $end x", "ok $version\n");
        $texts[$place] .= 'x';
    }
    my $after = own_time();
    return defined $before && defined $after ? sprintf '%.0f μs', ($after - $before) / 1000 / $edits : 'not told';
}

sub row_of_letters {
    my ($workers, $kind) = @_;
    my $own = type_letters($kind);
    my $waiting = count_waiting();
    printf "| %s | %s | %s | %d |\n", $workers, row_of($kind), $own, $waiting;
}

# The processor seconds that the program has had, and the most megabytes.
sub cost_so_far {
    my @fields = split ' ', read_file("/proc/$pid/stat");
    my ($memory) = read_file("/proc/$pid/status") =~ /^VmHWM:\s+(\d+)/m;
    return (($fields[13] + $fields[14]) / 100, $memory / 1024);
}

write_dictionary();
print "| workers | a letter is typed | times | median | most | own time | paragraphs that wait |\n|---|---|---|---|---|---|---|\n";
start('none');
row_of_letters('none', 'while all wait');
ask('settle', 'settle', "ok $version\n");
fail('not all are checked behind settle') if count_waiting() > 0;
quit_program();
start($most);
row_of_letters($most, 'while they check all');
wait_for_workers();
row_of_letters($most, 'when all are checked');
wait_for_workers();
fail('not all are checked') if count_waiting() > 0;
quit_program();

my (@counts, $first) = ('none');
for (my $workers = 1; $workers < $most; $workers *= 2) { push @counts, $workers }
print "\n| workers | all are checked after | times as fast | processor time | memory |\n|---|---|---|---|---|\n";
for my $workers (@counts, $most) {
    start($workers);
    my ($before) = cost_so_far();
    my $from = time;
    $workers eq 'none' ? ask('settle', 'settle', "ok $version\n") : wait_for_workers();
    my $took = time - $from;
    my ($after, $memory) = cost_so_far();
    fail('not all are checked') if count_waiting() > 0;
    quit_program();
    $first //= $took;
    printf "| %s | %.2f s | %.1f | %.1f s | %.1f MB |\n", $workers, $took, $first / $took, $after - $before, $memory;
}
PERL

# The launcher builds the program where it is missing; the program itself is talked to.
printf 'SET UTF-8\n' > "$work/a.aff"
printf '2\nparagraph\nhello\n' > "$work/a.dic"
"$top/affedit" check "$work/a.aff" "$work/a.dic" "$work/a.dic" > /dev/null
program=$top/out/affedit
if [ "$workers" = none ]; then
    perl "$work/editor" "$program" "$work" "${1:-20000}" "${2:-1000}"
    awk '{ printf "in all %.2f s of the processor, %.1f MB\n", $1 + $2, $3 / 1024 }' "$work/said"
    exit
fi
perl "$work/typist" "$program" "$work" "$workers" "${1:-20000}" "${2:-1000}" "${3:-1000}"
