// Clients of etcd, each of which asks one thing after the other for some seconds; how much was done, in a line of JSON.
//
//	etcd URL,.. CLIENTS SECONDS put|get BYTES
//
// Clients share at most 24 connections, each to one of the members in turn, as etcd's own benchmark has them. A get is linearizable, as etcd's
// gets are if nothing else is asked for.
package main

import (
	"context"
	"encoding/json"
	"errors"
	"fmt"
	"math/rand"
	"os"
	"sort"
	"strings"
	"sync"
	"time"

	"go.etcd.io/etcd/clientv3"
)

const (
	keys  = 10000
	conns = 24
	wait  = 20 * time.Second
)

type asked struct {
	clients, bytes int
	seconds        float64
	isPut          bool
}

func key(of int) string { return fmt.Sprintf("key:%012d", of) }

func one(client *clientv3.Client, isPut bool, body string) error {
	ctx := context.Background()
	if isPut {
		_, err := client.Put(ctx, key(rand.Intn(keys)), body)
		return err
	}
	_, err := client.Get(ctx, key(rand.Intn(keys)))
	return err
}

func connected(urls []string, many int) ([]*clientv3.Client, error) {
	var clients []*clientv3.Client
	for k := 0; k < many && k < conns; k++ {
		client, err := clientv3.New(clientv3.Config{Endpoints: []string{urls[k%len(urls)]}, DialTimeout: wait})
		if err != nil {
			return nil, err
		}
		ctx, cancel := context.WithTimeout(context.Background(), wait)
		_, err = client.Get(ctx, "ready")
		cancel()
		if err != nil {
			return nil, err
		}
		clients = append(clients, client)
	}
	return clients, nil
}

// What so many clients do meanwhile: microseconds of each answer.
func run(clients []*clientv3.Client, a asked) ([]float64, error) {
	var all sync.WaitGroup
	took, failed := make([][]float64, a.clients), make([]error, a.clients)
	body := strings.Repeat("x", a.bytes)
	until := time.Now().Add(time.Duration(a.seconds * float64(time.Second)))
	for k := 0; k < a.clients; k++ {
		all.Add(1)
		go func(k int) {
			defer all.Done()
			for {
				began := time.Now()
				if began.After(until) {
					return
				}
				if failed[k] = one(clients[k%len(clients)], a.isPut, body); failed[k] != nil {
					return
				}
				took[k] = append(took[k], float64(time.Since(began).Nanoseconds())/1e3)
			}
		}(k)
	}
	all.Wait()
	var every []float64
	for k := range took {
		if failed[k] != nil {
			return nil, failed[k]
		}
		every = append(every, took[k]...)
	}
	sort.Float64s(every)
	return every, nil
}

func start(words []string) error {
	var a asked
	var kind string
	if len(words) != 5 {
		return errors.New("URL,.. CLIENTS SECONDS put|get BYTES")
	}
	if n, _ := fmt.Sscan(strings.Join(words[1:], " "), &a.clients, &a.seconds, &kind, &a.bytes); n != 4 || a.clients < 1 {
		return errors.New("CLIENTS, SECONDS and BYTES are numbers")
	}
	a.isPut = kind == "put"
	clients, err := connected(strings.Split(words[0], ","), a.clients)
	if err != nil {
		return err
	}
	took, err := run(clients, a)
	if err != nil || len(took) == 0 {
		return fmt.Errorf("nothing was answered: %v", err)
	}
	share := func(percent int) float64 { return took[(len(took)-1)*percent/100] }
	text, err := json.Marshal(map[string]float64{"rate": float64(len(took)) / a.seconds, "p50": share(50), "p99": share(99)})
	fmt.Println(string(text))
	return err
}

func main() {
	if err := start(os.Args[1:]); err != nil {
		fmt.Fprintf(os.Stderr, "etcd: %v\n", err)
		os.Exit(1)
	}
}
