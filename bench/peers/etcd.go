// A client of one member of etcd under load, beside the example `load` of runtime/group: one process, one member. It is told on standard
// input what to do, a line each, and answers each by a line of JSON. {"ready": true} comes first, once the member answers. It ends at the
// end of its input.
//
//	etcd PLACE URL [CERTIFICATE]
//
// A message is a put of a key of its sender, and is delivered where a watch of all keys at this member gives it: all members give all of
// them in one order. A sender in a flood has many puts under way. The lines are those of `load`; `stopped` says from when on a delivery counts
// for `resumed`. Times are nanoseconds of the system's monotonic clock.
package main

import (
	"bufio"
	"context"
	"crypto/tls"
	"crypto/x509"
	"encoding/binary"
	"encoding/json"
	"errors"
	"fmt"
	"io/ioutil"
	"os"
	"strings"
	"sync"
	"sync/atomic"
	"time"

	"go.etcd.io/etcd/clientv3"
	"golang.org/x/sys/unix"
)

const (
	head    = 16   // the cell's number (4), the message's number (4), the time of its sending (8)
	atOnce  = 64   // puts under way of one sender in a flood
	keys    = 4096 // keys of one sender
	mostOut = 16   // puts under way of one that sends at a pace
	starts  = 20 * time.Second
)

// What was delivered of the messages of one cell.
type cell struct {
	number                                       uint32
	delivered, order, last, own, killed, resumed uint64
	keeps                                        bool
	took                                         []uint64
}

type load struct {
	place   int
	client  *clientv3.Client
	mutex   sync.Mutex
	changed *sync.Cond
	cell    cell
	paces   int32
}

func now() uint64 {
	var at unix.Timespec
	// the clock is there on every system that this is built for
	_ = unix.ClockGettime(unix.CLOCK_MONOTONIC, &at)
	return uint64(at.Sec)*1e9 + uint64(at.Nsec)
}

func sleepUntil(at uint64) {
	if t := now(); at > t {
		time.Sleep(time.Duration(at - t))
	}
}

func connected(url, certificate string) (*clientv3.Client, error) {
	config := clientv3.Config{Endpoints: []string{url}, DialTimeout: starts}
	if certificate != "" {
		text, err := ioutil.ReadFile(certificate)
		if err != nil {
			return nil, err
		}
		pool := x509.NewCertPool()
		if !pool.AppendCertsFromPEM(text) {
			return nil, errors.New("no certificate")
		}
		config.TLS = &tls.Config{RootCAs: pool}
	}
	return clientv3.New(config)
}

// Waits until the member answers, and watches all keys from then on.
func start(place int, url, certificate string) (*load, error) {
	client, err := connected(url, certificate)
	if err != nil {
		return nil, err
	}
	l := &load{place: place, client: client}
	l.changed = sync.NewCond(&l.mutex)
	until := now() + uint64(starts)
	for {
		try, cancel := context.WithTimeout(context.Background(), time.Second)
		_, err = client.Get(try, "ready")
		cancel()
		if err == nil {
			break
		}
		if now() > until {
			return nil, err
		}
		time.Sleep(50 * time.Millisecond)
	}
	watch := client.Watch(context.Background(), "m/", clientv3.WithPrefix(), clientv3.WithCreatedNotify())
	<-watch
	go func() {
		for told := range watch {
			for _, event := range told.Events {
				l.count(string(event.Kv.Key), event.Kv.Value)
			}
		}
	}()
	return l, nil
}

// Counts a message that is of this cell.
func (l *load) count(key string, message []byte) {
	var from, slot int
	if n, _ := fmt.Sscanf(key, "m/%d/%d", &from, &slot); n != 2 || len(message) < head {
		return
	}
	number := binary.LittleEndian.Uint32(message[4:])
	sent := binary.LittleEndian.Uint64(message[8:])
	l.mutex.Lock()
	defer l.mutex.Unlock()
	c := &l.cell
	if binary.LittleEndian.Uint32(message) != c.number {
		return
	}
	at := now()
	c.delivered++
	c.last = at
	c.order = (c.order ^ (uint64(from)<<32 | uint64(number))) * 0x100000001b3
	if c.keeps {
		c.took = append(c.took, at-sent)
	}
	if c.killed > 0 && c.resumed == 0 && sent > c.killed {
		c.resumed = at
	}
	if from == l.place {
		c.own = uint64(number) + 1
		l.changed.Broadcast()
	}
}

func (l *load) put(ctx context.Context, of, number uint32, bytes int) error {
	if bytes < head {
		bytes = head
	}
	message := make([]byte, bytes)
	binary.LittleEndian.PutUint32(message, of)
	binary.LittleEndian.PutUint32(message[4:], number)
	binary.LittleEndian.PutUint64(message[8:], now())
	_, err := l.client.Put(ctx, fmt.Sprintf("m/%d/%d", l.place, number%keys), string(message))
	return err
}

func (l *load) flood(bytes int, from, until uint64, sends bool) string {
	var next, sent uint32
	var all sync.WaitGroup
	of := l.cell.number
	sleepUntil(from)
	for k := 0; sends && k < atOnce; k++ {
		all.Add(1)
		go func() {
			defer all.Done()
			for now() < until {
				if l.put(context.Background(), of, atomic.AddUint32(&next, 1), bytes) == nil {
					atomic.AddUint32(&sent, 1)
				}
			}
		}()
	}
	all.Wait()
	return fmt.Sprintf(`{"sent": %d}`, sent)
}

// Looks each millisecond whether something holds of the cell, until then; the cell.
func (l *load) wait(until uint64, holds func(*cell) bool) cell {
	for {
		l.mutex.Lock()
		seen := l.cell
		l.mutex.Unlock()
		if holds(&seen) || now() >= until {
			return seen
		}
		time.Sleep(time.Millisecond)
	}
}

func (l *load) settle(all, until uint64) string {
	seen := l.wait(until, func(c *cell) bool { return c.delivered >= all })
	return fmt.Sprintf(`{"delivered": %d, "order": "%x", "last": %d}`, seen.delivered, seen.order, seen.last)
}

func (l *load) single(bytes int, many, pause, until uint64, sends bool) (string, error) {
	chance := uint64(17)
	l.mutex.Lock()
	l.cell.keeps = true
	of := l.cell.number
	l.mutex.Unlock()
	for number := uint64(0); sends && number < many && now() < until; number++ {
		chance = chance*6364136223846793005 + 1
		sleepUntil(now() + pause/2 + (chance>>33)%pause)
		if l.put(context.Background(), of, uint32(number), bytes) != nil {
			break
		}
		l.mutex.Lock()
		for l.cell.own <= number {
			l.changed.Wait()
		}
		l.mutex.Unlock()
	}
	seen := l.wait(until, func(c *cell) bool { return uint64(len(c.took)) >= many })
	took, err := json.Marshal(map[string][]uint64{"took": append([]uint64{}, seen.took...)})
	return string(took), err
}

// Sends a message each so many nanoseconds, as long as that is wanted; none while many are under way.
func (l *load) pace(bytes int, every uint64) {
	of, due := l.cell.number, now()
	var out int32
	for number := uint32(0); atomic.LoadInt32(&l.paces) == 1; number++ {
		if atomic.LoadInt32(&out) < mostOut {
			atomic.AddInt32(&out, 1)
			go func(number uint32) {
				try, cancel := context.WithTimeout(context.Background(), 100*time.Millisecond)
				// what isn't taken in time is missing
				_ = l.put(try, of, number, bytes)
				cancel()
				atomic.AddInt32(&out, -1)
			}(number)
		}
		if due += every; due < now() {
			due = now()
		}
		sleepUntil(due)
	}
}

// The place of the leader, by the ids that members were given in the order of their names.
func (l *load) leader(url string) (string, error) {
	status, err := l.client.Status(context.Background(), url)
	if err != nil {
		return "", err
	}
	members, err := l.client.MemberList(context.Background())
	if err != nil {
		return "", err
	}
	for _, member := range members.Members {
		if member.ID == status.Leader {
			return fmt.Sprintf(`{"sequencer": %s}`, strings.TrimPrefix(member.Name, "n")), nil
		}
	}
	return "", errors.New("there is no leader")
}

// Does what a line says; the answer to it.
func (l *load) answer(line, url string) (string, error) {
	var word string
	var a, b, c, d uint64
	var sends int
	fmt.Sscan(line, &word)
	scan := func(many int, format string, into ...interface{}) bool {
		n, _ := fmt.Sscanf(line, format, into...)
		return n == many
	}
	switch {
	case scan(1, "cell %d", &a):
		l.mutex.Lock()
		l.cell = cell{number: uint32(a), order: 0xcbf29ce484222325}
		l.mutex.Unlock()
	case word == "flood" && scan(4, "flood %d %d %d %d", &a, &b, &c, &sends):
		return l.flood(int(a), b, c, sends == 1), nil
	case scan(2, "settle %d %d", &a, &b):
		return l.settle(a, b), nil
	case word == "single" && scan(5, "single %d %d %d %d %d", &a, &b, &c, &d, &sends):
		return l.single(int(a), b, c, d, sends == 1)
	case scan(2, "pace %d %d", &a, &b):
		atomic.StoreInt32(&l.paces, 1)
		go l.pace(int(a), b)
	case scan(1, "resumed %d", &a):
		seen := l.wait(a, func(c *cell) bool { return c.resumed > 0 })
		atomic.StoreInt32(&l.paces, 0)
		return fmt.Sprintf(`{"resumed": %d}`, seen.resumed), nil
	case word == "sequencer":
		return l.leader(url)
	case scan(1, "stopped %d", &a):
		l.mutex.Lock()
		l.cell.killed = now()
		l.mutex.Unlock()
	default:
		return "", fmt.Errorf("no such line: %s", line)
	}
	return "{}", nil
}

func run(words []string) error {
	var place int
	if len(words) < 2 {
		return errors.New("PLACE URL [CERTIFICATE]")
	}
	if n, _ := fmt.Sscan(words[0], &place); n != 1 {
		return errors.New("a place is a number")
	}
	l, err := start(place, words[1], strings.Join(words[2:], " "))
	if err != nil {
		return err
	}
	fmt.Println(`{"ready": true}`)
	lines := bufio.NewScanner(os.Stdin)
	for lines.Scan() {
		said, err := l.answer(lines.Text(), words[1])
		if err != nil {
			return err
		}
		fmt.Println(said)
	}
	return lines.Err()
}

func main() {
	if err := run(os.Args[1:]); err != nil {
		fmt.Fprintf(os.Stderr, "etcd: %v\n", err)
		os.Exit(1)
	}
}
