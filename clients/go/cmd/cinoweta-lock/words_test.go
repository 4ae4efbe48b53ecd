//go:build linux

package main

import (
	"os"
	"path/filepath"
	"strings"
	"testing"
	"time"
)

func TestWords(t *testing.T) {
	t.Setenv("CINOWETA_RING", "7101-7103")
	t.Setenv("CINOWETA_STATUS", "7100")
	usual := words{ring: "7101-7103", status: "7100", group: "jobs", keep: 2, timeout: 10 * time.Second, patience: 5 * time.Second,
		grace: 10 * time.Second, wait: forEver, giveUp: forEver, command: []string{"work"}}
	told, err := parse([]string{"jobs", "--", "work"})
	must(t, err)
	same(t, told, usual)
	all := words{ring: "1-2", status: "3", group: "-", text: "a job", rank: 4, keep: 5, timeout: 1500 * time.Millisecond,
		patience: -time.Second, grace: 0, wait: 8 * time.Second, giveUp: 9 * time.Second, isAcross: true, isJSON: true,
		command: []string{"work", "--wait", "--", "x"}}
	told, err = parse(strings.Split("--ring,1-2,--status,3,--text,a job,--rank,4,--keep,5,--timeout,1.5,--patience,-1,--grace,0,--wait,"+
		"8,--give-up,9,-,--across-hosts,--json,--,work,--wait,--,x", ","))
	must(t, err)
	same(t, told, all)
	told, err = parse(strings.Split("-,--ring=1-2,--stat=3,--te=a job,--ra=4,--k=5,--timeo=1.5,--p=-1,--gr=0,--w=8,--gi= 9 ,--a,--j,"+
		"--,work,--wait,--,x", ","))
	must(t, err)
	same(t, told, all)
	for text, wanted := range map[string]time.Duration{"inf": forEver, "1e300": forEver, "1e999": forEver, "-inf": -forEver, "0.25": 250 * time.Millisecond} {
		told, err = parse([]string{"jobs", "--wait", text, "--", "work"})
		must(t, err)
		same(t, told.wait, wanted)
	}
}

func TestWrongWords(t *testing.T) {
	for text, wanted := range map[string]string{
		"":                               "the following arguments are required: GROUP",
		"-- true":                        "the following arguments are required: GROUP",
		"jobs":                           "it takes a COMMAND behind --, as in: cinoweta-lock jobs -- ./work",
		"jobs --":                        "it takes a COMMAND behind --, as in: cinoweta-lock jobs -- ./work",
		"jobs more -- true":              "unrecognized arguments: more",
		"-x jobs --none=3 more -- true":  "unrecognized arguments: -x --none=3 more",
		"--wait":                         "argument --wait: expected one argument",
		"jobs --wait -- true":            "argument --wait: expected one argument",
		"jobs --text --json -- true":     "argument --text: expected one argument",
		"jobs --wait soon -- true":       "argument --wait: invalid float value: 'soon'",
		"jobs --grace= -- true":          "argument --grace: invalid float value: ''",
		"jobs --timeout nan -- true":     "argument --timeout: invalid float value: 'nan'",
		"jobs --rank 1.5 -- true":        "argument --rank: invalid int value: '1.5'",
		"jobs --keep=x -- true":          "argument --keep: invalid int value: 'x'",
		"jobs --json=1 -- true":          "argument --json: ignored explicit argument '1'",
		"jobs --r 3 -- true":             "ambiguous option: --r could match --ring, --rank",
		"jobs --wait 1 --g 3 -- true -x": "ambiguous option: --g could match --give-up, --grace",
	} {
		lock(nil, strings.Fields(text)...).start(t).endsWith(t, 2, "", usage+"\ncinoweta-lock: error: "+wanted+"\n")
	}
}

func TestTheHelpHasEachOption(t *testing.T) {
	for _, each := range (&words{}).options() {
		same(t, []any{each.name, strings.Contains(help, "  "+each.name+" ") || strings.Contains(help, ", "+each.name+" ")}, []any{each.name, true})
	}
	for _, line := range strings.Split(help, "\n") {
		same(t, []any{line, len(line) <= 80}, []any{line, true})
	}
	for _, text := range []string{"-h", "--help", "jobs --wait 3 --help --none"} {
		lock(nil, strings.Fields(text)...).start(t).endsWith(t, 0, help, "")
	}
}

func TestTheVersionIsThatOfThePythonPackage(t *testing.T) {
	lock(nil, "--version").start(t).endsWith(t, 0, "cinoweta-lock "+version+"\n", "")
	text, err := os.ReadFile(filepath.Join("..", "..", "..", "python", "cinoweta", "__init__.py"))
	if err != nil {
		t.Skip(err)
	}
	same(t, strings.Contains(string(text), `__version__ = "`+version+`"`), true)
}

func TestWhereNothingCanBePrinted(t *testing.T) {
	full, err := os.OpenFile("/dev/full", os.O_WRONLY, 0)
	must(t, err)
	defer full.Close()
	asked := lock(nil, "--version")
	asked.command.Stdout = full
	if asked.command.Run() == nil {
		t.Fatal("it was printed")
	}
	same(t, asked.command.ProcessState.ExitCode(), systemFailed)
}
