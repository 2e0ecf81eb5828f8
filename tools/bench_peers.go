// The program that tools/bench_peers runs beside ours: golang.org/x/crypto/ssh authenticates so many pairs of a client and a
// server in one process, by curve25519-sha256, ssh-ed25519, chacha20-poly1305@openssh.com and a password. Between them stands a
// pipe that holds what is written: with net.Pipe, whose writes wait for a reader, both would wait for each other's version line.
package main

import (
	"bytes"
	"crypto/ed25519"
	"crypto/rand"
	"errors"
	"fmt"
	"io"
	"net"
	"os"
	"strconv"

	"golang.org/x/crypto/ssh"
)

var password = []byte("a password of some bytes")

// One end of a pipe in memory.
type end struct {
	net.Conn
	in   <-chan []byte
	out  chan<- []byte
	rest []byte
}

func (e *end) Read(into []byte) (int, error) {
	if len(e.rest) == 0 {
		piece, open := <-e.in
		if !open {
			return 0, io.EOF
		}
		e.rest = piece
	}
	count := copy(into, e.rest)
	e.rest = e.rest[count:]
	return count, nil
}

func (e *end) Write(from []byte) (int, error) {
	e.out <- append([]byte(nil), from...)
	return len(from), nil
}

func (e *end) Close() error { return nil }

func (e *end) LocalAddr() net.Addr { return &net.IPAddr{} }

func (e *end) RemoteAddr() net.Addr { return &net.IPAddr{} }

func pipe() (*end, *end) {
	up, down := make(chan []byte, 64), make(chan []byte, 64)
	return &end{in: down, out: up}, &end{in: up, out: down}
}

func configs() (*ssh.ClientConfig, *ssh.ServerConfig, error) {
	_, key, err := ed25519.GenerateKey(rand.Reader)
	if err != nil {
		return nil, nil, err
	}
	signer, err := ssh.NewSignerFromKey(key)
	if err != nil {
		return nil, nil, err
	}
	algorithms := ssh.Config{
		KeyExchanges: []string{"curve25519-sha256"},
		Ciphers:      []string{"chacha20-poly1305@openssh.com"},
	}
	server := &ssh.ServerConfig{
		Config: algorithms,
		PasswordCallback: func(_ ssh.ConnMetadata, given []byte) (*ssh.Permissions, error) {
			if bytes.Equal(given, password) {
				return nil, nil
			}
			return nil, errors.New("another password")
		},
	}
	server.AddHostKey(signer)
	client := &ssh.ClientConfig{
		Config:          algorithms,
		User:            "al",
		Auth:            []ssh.AuthMethod{ssh.Password(string(password))},
		HostKeyCallback: ssh.FixedHostKey(signer.PublicKey()),
	}
	return client, server, nil
}

func pair(client *ssh.ClientConfig, server *ssh.ServerConfig) error {
	ours, theirs := pipe()
	defer close(ours.out)
	defer close(theirs.out)
	ended := make(chan error, 1)
	go func() {
		_, _, _, err := ssh.NewServerConn(theirs, server)
		ended <- err
	}()
	if _, _, _, err := ssh.NewClientConn(ours, "here", client); err != nil {
		return err
	}
	return <-ended
}

func run() error {
	if len(os.Args) != 3 || os.Args[1] != "pairs" {
		return errors.New("two words are wanted: pairs N")
	}
	count, err := strconv.Atoi(os.Args[2])
	if err != nil {
		return err
	}
	client, server, err := configs()
	if err != nil {
		return err
	}
	for i := 0; i < count; i++ {
		if err := pair(client, server); err != nil {
			return err
		}
	}
	fmt.Println(count, "pairs")
	return nil
}

func main() {
	if err := run(); err != nil {
		fmt.Fprintln(os.Stderr, err)
		os.Exit(1)
	}
}
