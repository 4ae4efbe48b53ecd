//go:build linux

package main

import (
	"errors"
	"fmt"
	"math"
	"os"
	"strconv"
	"strings"
	"time"

	"cinoweta"
)

const (
	// The version is that of ringd and of the Python package.
	version = "0.1.0"
	usage   = "usage: cinoweta-lock [OPTION..] GROUP -- COMMAND"
	// For ever is longer than anything lasts; some more of it is a time yet.
	forEver = time.Duration(1) << 61
)

// The help has each of the options.
const help = usage + `

runs the COMMAND behind -- while it leads

positional arguments:
  GROUP

options:
  -h, --help          show this help message and exit
  --version           show the version and exit
  --ring PORTS        the ports of all nodes, as 7101-7103, or of another host
                      10.0.0.5:7101-7103; CINOWETA_RING where it is left out
  --json              tells a fault as an object
  --timeout SECONDS   how long an answer is waited for
  --rank RANK         0 to 9
  --patience SECONDS  a holder that does not answer for so long is gone, as
                      one that is paused
  --across-hosts      holders are seen by ringd --status, from other hosts
                      too, as with a ring of another host
  --wait SECONDS      how long it waits for who holds the lock, and for a ring
                      that is away, full or failed; 0 tries once, for two
                      seconds at most, or until a holder that does not answer
                      is gone; for ever where it is left out
  --give-up SECONDS   ends the COMMAND once no node answered for so long;
                      never where it is left out
  --grace SECONDS     from TERM to KILL
  --text TEXT         what ` + "`cinoweta holder`" + ` tells of this one, 200 bytes
                      at most
  --keep N            who leads has each node retire the terms more than so
                      many below its own
  --status PORT       that of ringd --status, which may stand behind the
                      ring's host, or CINOWETA_STATUS: where nobody comes to
                      lead, it is asked why, and across hosts who holds a
                      lock; one that is held is shown there

exit status: that of COMMAND, 128 and its number for a signal; 2 wrong words;
3 no answer; 4 no leader in so many terms; 5 the lock was lost; 6 it was not
had in time; 7 the system failed; 10 + N refused as ` + "`no N`" + `, as 16 for
` + "`no 6 limit`" + ` and 17 for ` + "`no 7 full`" + `; 126 where COMMAND can't be started,
127 where there is none. Fencing at what COMMAND writes to makes a lock safe: it
turns away each write with a lower term than one that it has seen, which COMMAND
finds in CINOWETA_TERM.
`

// The words are what is told on the command line, or by the environment.
type words struct {
	ring, status, group, text string
	rank, keep                int
	timeout, patience, grace  time.Duration
	wait, giveUp              time.Duration
	isAcross, isJSON          bool
	command                   []string
	// What is shown in place of all else, if anything is.
	shown string
}

// An option takes a value, or none: then it is a flag.
type option struct {
	name string
	take func(text string) error
	flag func()
}

// options are those of the help, and set what they tell.
func (w *words) options() []option {
	show := func(text string) func() { return func() { w.shown = text } }
	return []option{
		{name: "--help", flag: show(help)},
		{name: "--version", flag: show("cinoweta-lock " + version + "\n")},
		{name: "--ring", take: textTo(&w.ring)},
		{name: "--json", flag: flagTo(&w.isJSON)},
		{name: "--timeout", take: secondsTo(&w.timeout)},
		{name: "--rank", take: numberTo(&w.rank)},
		{name: "--patience", take: secondsTo(&w.patience)},
		{name: "--across-hosts", flag: flagTo(&w.isAcross)},
		{name: "--wait", take: secondsTo(&w.wait)},
		{name: "--give-up", take: secondsTo(&w.giveUp)},
		{name: "--grace", take: secondsTo(&w.grace)},
		{name: "--text", take: textTo(&w.text)},
		{name: "--keep", take: numberTo(&w.keep)},
		{name: "--status", take: textTo(&w.status)},
	}
}

func textTo(place *string) func(string) error {
	return func(text string) error {
		*place = text
		return nil
	}
}

func flagTo(place *bool) func() {
	return func() { *place = true }
}

func numberTo(place *int) func(string) error {
	return func(text string) error {
		number, err := strconv.Atoi(strings.TrimSpace(text))
		if err != nil && !errors.Is(err, strconv.ErrRange) {
			return fmt.Errorf("invalid int value: '%s'", text)
		}
		*place = number
		return nil
	}
}

func secondsTo(place *time.Duration) func(string) error {
	return func(text string) error {
		number, err := strconv.ParseFloat(strings.TrimSpace(text), 64)
		if err != nil && !errors.Is(err, strconv.ErrRange) || math.IsNaN(number) {
			return fmt.Errorf("invalid float value: '%s'", text)
		}
		// A greater one is no Duration.
		number = math.Min(math.Max(number, -forEver.Seconds()), forEver.Seconds())
		*place = time.Duration(number * float64(time.Second))
		return nil
	}
}

// parse reads the words, as argparse of Python does those of `cinoweta lock`.
func parse(all []string) (words, error) {
	told := words{ring: os.Getenv("CINOWETA_RING"), status: os.Getenv("CINOWETA_STATUS"), keep: cinoweta.DefaultKeep,
		timeout: cinoweta.DefaultTimeout, patience: cinoweta.DefaultPatience, grace: 10 * time.Second, wait: forEver, giveUp: forEver}
	// What stands behind -- is the command, whatever it looks like.
	for place, word := range all {
		if word == "--" {
			all, told.command = all[:place], all[place+1:]
			break
		}
	}
	others, isGroupTold, err := told.takeAll(all)
	switch {
	case err != nil || told.shown != "":
		return told, err
	case !isGroupTold:
		return told, errors.New("the following arguments are required: GROUP")
	case len(told.command) == 0:
		return told, errors.New("it takes a COMMAND behind --, as in: cinoweta-lock jobs -- ./work")
	case len(others) > 0:
		return told, fmt.Errorf("unrecognized arguments: %s", strings.Join(others, " "))
	}
	return told, nil
}

// takeAll takes the group and the options, which may stand before it or behind it, and gives the words that are neither.
func (w *words) takeAll(all []string) (others []string, isGroupTold bool, err error) {
	for len(all) > 0 && w.shown == "" {
		word := all[0]
		all = all[1:]
		name, value, hasValue := strings.Cut(word, "=")
		found, err := w.find(name)
		switch {
		case err != nil:
			return nil, false, err
		case found != nil:
			if all, err = found.takeFrom(value, hasValue, all); err != nil {
				return nil, false, fmt.Errorf("argument %s: %w", found.name, err)
			}
		case isGroupTold || isOption(word):
			others = append(others, word)
		default:
			w.group, isGroupTold = word, true
		}
	}
	return others, isGroupTold, nil
}

// find gives the option of this name, or of one that begins so where it is the only one; nil where there is none.
func (w *words) find(name string) (*option, error) {
	if name == "-h" {
		name = "--help"
	}
	if !strings.HasPrefix(name, "--") {
		return nil, nil
	}
	var found *option
	matches := []string{}
	for _, each := range w.options() {
		each := each
		if each.name == name {
			return &each, nil
		}
		if strings.HasPrefix(each.name, name) {
			found, matches = &each, append(matches, each.name)
		}
	}
	if len(matches) > 1 {
		return nil, fmt.Errorf("ambiguous option: %s could match %s", name, strings.Join(matches, ", "))
	}
	return found, nil
}

// takeFrom has the option take its value, from behind its = or from the next word, and gives the words behind that.
func (o *option) takeFrom(value string, hasValue bool, behind []string) ([]string, error) {
	switch {
	case o.flag != nil && hasValue:
		return behind, fmt.Errorf("ignored explicit argument '%s'", value)
	case o.flag != nil:
		o.flag()
		return behind, nil
	case !hasValue && (len(behind) == 0 || isOption(behind[0])):
		return behind, errors.New("expected one argument")
	case !hasValue:
		value, behind = behind[0], behind[1:]
	}
	return behind, o.take(value)
}

// isOption tells whether a word is one by its look. A number below 0 is a value, and so is what has a space.
func isOption(word string) bool {
	_, err := strconv.ParseFloat(word, 64)
	return len(word) > 1 && word[0] == '-' && err != nil && !strings.Contains(word, " ")
}
