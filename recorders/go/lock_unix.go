//go:build unix

package record

import (
	"errors"
	"io"
	"os"
	"syscall"
)

func init() {
	lock = func(file *os.File) {
		setLock(file, syscall.F_WRLCK) // its folder may have no locks
	}
	isLocked = func(file *os.File) bool {
		err := setLock(file, syscall.F_RDLCK)
		return errors.Is(err, syscall.EACCES) || errors.Is(err, syscall.EAGAIN)
	}
}

// setLock has this process hold a lock of this kind on the whole file, for as long as it runs or until it closes the
// file. Another process that holds one is an error.
func setLock(file *os.File, kind int16) error {
	return syscall.FcntlFlock(file.Fd(), syscall.F_SETLK, &syscall.Flock_t{Type: kind, Whence: io.SeekStart})
}
