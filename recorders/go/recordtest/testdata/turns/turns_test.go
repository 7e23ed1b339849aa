// Package turns has tests that are run by those of recordtest. Some have to fail.
package turns

import (
	"fmt"
	"sync/atomic"
	"testing"

	"monitor.example/record"
	"monitor.example/record/recordtest"
)

// turns has two processes inside one after the other. If it is early, the turn is handed on before the first goes out.
func turns(t *testing.T, run *recordtest.Run, early bool) {
	t.Helper()
	left := recordtest.Recorder(run, "left", record.ToFile)
	right := recordtest.Recorder(run, "right", record.ToFile)
	see(t, left.Event(record.Set("inside", 1)))
	if !early {
		see(t, left.Event(record.Set("inside", 0)))
	}
	id, err := left.Send()
	see(t, err)
	see(t, right.Receive(id, record.Set("inside", 1)))
}

func see(t *testing.T, err error) {
	t.Helper()
	if err != nil {
		t.Fatal(err)
	}
}

func TestLate(t *testing.T) {
	turns(t, recordtest.Start(t, "session.json", "both"), false)
}

func TestEarly(t *testing.T) {
	turns(t, recordtest.Start(t, "session.json"), true)
}

func TestMany(t *testing.T) {
	for number := 0; number < 4; number++ {
		number := number
		t.Run(fmt.Sprintf("number=%d", number), func(t *testing.T) {
			t.Parallel()
			turns(t, recordtest.Start(t, "session.json", "both"), number == 2)
		})
	}
}

// TestOfSubtests is judged after its subtests, which go on when its own lines are done.
func TestOfSubtests(t *testing.T) {
	run := recordtest.Start(t, "session.json", "both")
	left := recordtest.Recorder(run, "left", record.ToFile)
	right := recordtest.Recorder(run, "right", record.ToFile)
	for place, recorder := range []*record.Recorder{left, right} {
		name, recorder := [...]string{"left", "right"}[place], recorder
		t.Run(name, func(t *testing.T) {
			t.Parallel()
			see(t, recorder.Event(record.Set("inside", 1)))
		})
	}
}

var runs int32

// TestAgain fails the third time that it is run in one process.
func TestAgain(t *testing.T) {
	turns(t, recordtest.Start(t, "session.json", "both"), atomic.AddInt32(&runs, 1) == 3)
}

func TestByItself(t *testing.T) {
	turns(t, recordtest.Start(t, "session.json"), true)
	t.Fatal("one isn't two")
}

func TestPanics(t *testing.T) {
	turns(t, recordtest.Start(t, "session.json"), true)
	panic("it panics")
}

func TestSkipped(t *testing.T) {
	turns(t, recordtest.Start(t, "session.json"), true)
	t.Skip("not here")
}

func TestWithoutADocument(t *testing.T) {
	recordtest.Start(t, "nowhere.json")
}

func TestOfAProcessThatCannotBe(t *testing.T) {
	recordtest.Recorder(recordtest.Start(t, "session.json"), "not", record.ToFile)
}
