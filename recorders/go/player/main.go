// The player makes the calls that it is told on its standard input, with the recorder for Go: see
// recorders/cases/README.md.
package main

import (
	"bufio"
	"context"
	"errors"
	"fmt"
	"net/url"
	"os"
	"os/signal"
	"strconv"
	"strings"
	"sync"
	"syscall"
	"time"

	"monitor.example/record"
)

var (
	recorder  *record.Recorder
	recorders map[string]*record.Recorder // the recorder of the process and those of its strands, by their names

	said []record.Setting // the note of the call, if it has one

	// What goroutines share, by its names.
	mutexes  map[string]*record.Mutex
	channels map[string]chan record.Carried[string]
)

// errCannot says that Go has no such call.
var errCannot = errors.New("no such call")

var refusals = []struct {
	reason error
	word   string
}{
	{record.ErrProcessName, "process-name"}, {record.ErrVariableName, "variable-name"}, {record.ErrValue, "value"},
	{record.ErrVariables, "variables"}, {record.ErrEvents, "events"}, {record.ErrID, "id"},
	{record.ErrIDTwice, "id-twice"}, {record.ErrEnded, "ended"}, {record.ErrBroken, "broken"},
	{record.ErrNameTwice, "name-twice"}, {record.ErrProcesses, "processes"}, {record.ErrNotEnded, "not-ended"},
	{record.ErrRunning, "running"}, {record.ErrAgain, "again"}, {record.ErrPlace, "place"}, {record.ErrLong, "long"},
	{record.ErrToken, "token"},
}

var refusalText string // that of the last one

func main() {
	lines := bufio.NewReader(os.Stdin)
	for {
		line, err := lines.ReadString('\n')
		if err != nil {
			return
		}
		words := strings.Split(strings.TrimSuffix(line, "\n"), " ")
		given, err := makeCall(words[0], words[1:])
		fmt.Println(answer(given, err))
	}
}

func answer(given string, err error) string {
	if err == nil {
		return strings.TrimSuffix("recorded "+given, " ")
	}
	if err == errCannot {
		return "cannot"
	}
	for _, refusal := range refusals {
		if errors.Is(err, refusal.reason) && errors.Is(err, record.ErrNotRecorded) {
			refusalText = err.Error()
			return "refused " + refusal.word
		}
	}
	return "failed"
}

func makeCall(call string, words []string) (given string, err error) {
	switch call {
	case "file":
		err = openFile(words[0], words[1], record.Options{})
	case "noted":
		err = openFile(words[0], words[1], record.Options{Notes: true})
	case "replaced":
		err = openFile(words[0], words[1], record.Options{Replace: true})
	case "again":
		err = openFile(words[0], words[1], record.Options{Again: true})
	case "noted-again":
		err = openFile(words[0], words[1], record.Options{Again: true, Notes: true})
	case "long":
		err = openFile(words[0], words[1], record.Options{Long: true})
	case "place", "again-at", "long-at":
		options := record.Options{Again: call == "again-at", Long: call == "long-at"}
		err = openPlace(textOf(words[0]), textOf(words[1]), options)
	case "said":
		given = refusalText
	case "note":
		return callNoted(words[0], words[1], words[2:])
	case "strand":
		err = begin(words[0])
	case "in":
		return callIn(words[0], words[1], words[2:])
	case "strands":
		err = takeStrands(int(numberOf(words[0])), int(numberOf(words[1])))
	case "port":
		err = openPort(textOf(words[0]), int(numberOf(words[1])), words[2], record.Options{})
	case "token-port":
		options := record.Options{Token: textOf(words[3])}
		err = openPort(textOf(words[0]), int(numberOf(words[1])), words[2], options)
	case "events":
		given = strconv.Itoa(recorder.Events())
	case "end":
		err = recorder.End()
	case "close":
		if recorder != nil {
			err = recorder.Close()
		}
	case "locked", "unlocked":
		err = contend(int(numberOf(words[0])), int(numberOf(words[1])), call == "locked")
	case "threads":
		err = takeTurns(int(numberOf(words[0])), int(numberOf(words[1])))
	case "flood":
		err = flood(int(numberOf(words[0])))
	case "signals":
		signal.Notify(make(chan os.Signal, 1), syscall.SIGWINCH)
	case "lock", "unlock", "put", "take":
		err = share(call, words[0])
	default:
		return recordCall(call, words)
	}
	return given, err
}

func openFile(process, path string, options record.Options) (err error) {
	recorder, err = options.ToFile(textOf(process), textOf(path))
	recorders = map[string]*record.Recorder{process: recorder}
	mutexes, channels = map[string]*record.Mutex{}, map[string]chan record.Carried[string]{}
	return err
}

func openPort(process string, port int, seconds string, options record.Options) (err error) {
	patience, err := time.ParseDuration(seconds + "s")
	if err != nil {
		return err
	}
	ctx, cancel := context.WithTimeout(context.Background(), patience)
	defer cancel()
	recorder, err = options.ToPort(ctx, process, port)
	recorders = map[string]*record.Recorder{process: recorder}
	return err
}

func openPlace(process, place string, options record.Options) (err error) {
	os.Setenv("MONITOR_TO", place)
	recorder, err = options.FromEnvironment(context.Background(), process)
	recorders = map[string]*record.Recorder{process: recorder}
	return err
}

func begin(name string) error {
	strand, err := recorder.Strand(textOf(name))
	if err == nil {
		recorders[name] = strand
	}
	return err
}

// share makes a call of what goroutines share.
func share(call, name string) error {
	if mutexes[name] == nil {
		mutexes[name], channels[name] = &record.Mutex{}, make(chan record.Carried[string], 8)
	}
	switch call {
	case "lock":
		return mutexes[name].Lock(recorder)
	case "unlock":
		return mutexes[name].Unlock(recorder)
	case "put":
		carried, err := record.Carry(recorder, name)
		channels[name] <- carried
		return err
	}
	_, err := (<-channels[name]).Take(recorder)
	return err
}

// callNoted makes the call with a text for its note.
func callNoted(text, call string, words []string) (string, error) {
	said = []record.Setting{record.Note(textOf(text))}
	defer func() { said = nil }()
	return makeCall(call, words)
}

// callIn makes the call by the recorder of a strand.
func callIn(name, call string, words []string) (string, error) {
	process := recorder
	defer func() { recorder = process }()
	recorder = recorders[name]
	return makeCall(call, words)
}

func recordCall(call string, words []string) (string, error) {
	id := ""
	if call == "send-text" { // Send takes settings alone
		return "", errCannot
	}
	if call == "send-as" || call == "receive" || call == "join" {
		id, words = textOf(words[0]), words[1:]
	}
	settings := said
	for _, word := range words {
		setting, ok := settingOf(word)
		if !ok {
			return "", errCannot
		}
		settings = append(settings, setting)
	}
	switch call {
	case "event":
		return "", recorder.Event(settings...)
	case "send":
		return recorder.Send(settings...)
	case "send-as":
		return "", recorder.SendAs(id, settings...)
	case "join":
		return "", recorder.Join(recorders[id], settings...)
	}
	return "", recorder.Receive(id, settings...)
}

// settingOf is the setting that a word says, if Go can say it.
func settingOf(word string) (record.Setting, bool) {
	place := strings.LastIndexByte(word, '=')
	name, value := textOf(word[:place]), word[place+1:]
	if value == "true" || value == "false" {
		return record.Set(name, value == "true"), true
	}
	if number, err := strconv.ParseInt(value, 10, 64); err == nil {
		return record.Set(name, number), true
	}
	number, err := strconv.ParseUint(value, 10, 64)
	return record.Set(name, number), err == nil
}

// textOf is the text for which a word stands: % and two digits are a byte, and % alone is no text at all.
func textOf(word string) string {
	if word == "%" {
		return ""
	}
	text, err := url.PathUnescape(word)
	if err != nil {
		panic(err)
	}
	return text
}

func numberOf(word string) int64 {
	number, err := strconv.ParseInt(word, 10, 64)
	if err != nil {
		panic(err)
	}
	return number
}

func takeTurns(count, turns int) error {
	var mutex sync.Mutex
	total := 0
	add := func() error {
		mutex.Lock()
		defer mutex.Unlock()
		total++
		return recorder.Event(record.Set("total", total))
	}
	return run(count, func(number int) error {
		for turn := 0; turn < turns; turn++ {
			id, err := recorder.Send(record.Set(fmt.Sprint("x", number), turn))
			if err != nil {
				return err
			}
			sent := numberOf(id[strings.LastIndexByte(id, '-')+1:])
			if err := recorder.Event(record.Set(fmt.Sprint("y", number), sent)); err != nil {
				return err
			}
			if err := recorder.Receive(fmt.Sprintf("m%d-%d", number, turn)); err != nil {
				return err
			}
			if err := add(); err != nil {
				return err
			}
		}
		return nil
	})
}

func takeStrands(count, turns int) error {
	return withStrands(count, func(strand *record.Recorder) error {
		for turn := 0; turn < turns; turn++ {
			if err := strand.Event(record.Set("x", turn)); err != nil {
				return err
			}
		}
		return nil
	})
}

// contend has strands go inside by turns, by a mutex if there is one.
func contend(count, turns int, isLocked bool) error {
	var mutex record.Mutex
	goInside := func(strand *record.Recorder) error {
		if isLocked {
			if err := mutex.Lock(strand); err != nil {
				return err
			}
			defer mutex.Unlock(strand)
		}
		if err := strand.Event(record.Set("x", 1)); err != nil {
			return err
		}
		return strand.Event(record.Set("x", 0))
	}
	return withStrands(count, func(strand *record.Recorder) error {
		for turn := 0; turn < turns; turn++ {
			if err := goInside(strand); err != nil {
				return err
			}
		}
		return nil
	})
}

// withStrands runs a goroutine for each of so many strands, and joins them.
func withStrands(count int, work func(strand *record.Recorder) error) error {
	strands := make([]*record.Recorder, count)
	for number := range strands {
		strand, err := recorder.Strand(fmt.Sprint("strand", number))
		if err != nil {
			return err
		}
		strands[number] = strand
	}
	err := run(count, func(number int) error {
		if err := work(strands[number]); err != nil {
			return err
		}
		return strands[number].End()
	})
	for _, strand := range strands {
		if err == nil {
			err = recorder.Join(strand)
		}
	}
	return err
}

func flood(count int) error {
	return run(count, func(int) error {
		for {
			id, err := recorder.Send()
			if errors.Is(err, record.ErrEvents) {
				return nil
			}
			if err != nil {
				return err
			}
			fmt.Println("sent " + id)
		}
	})
}

// run runs so many goroutines, and gives the error of one that has one.
func run(count int, work func(number int) error) error {
	errs := make(chan error, count)
	for number := 0; number < count; number++ {
		number := number
		go func() { errs <- work(number) }()
	}
	var found error
	for number := 0; number < count; number++ {
		if err := <-errs; err != nil {
			found = err
		}
	}
	return found
}
