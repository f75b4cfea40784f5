// Folders by goleveldb (Debian's golang-github-syndtr-goleveldb-dev), by its defaults: Snappy, and
// a log that is not flushed; with PLAIN set not compressed.
//
//	by_goleveldb kinds | make DIR KIND | scan DIR
//	by_goleveldb put DIR KEY VALUE | open DIR | compact DIR | recover DIR | deep DIR
//
// `open` writes nothing of its own; `recover` makes a new manifest of the tables that are there, and
// compacts none; `deep` makes a folder with levels so small that it needs more than seven of them.
package main

import (
	"bufio"
	"fmt"
	"math/rand"
	"os"
	"strings"

	"github.com/syndtr/goleveldb/leveldb"
	"github.com/syndtr/goleveldb/leveldb/filter"
	"github.com/syndtr/goleveldb/leveldb/opt"
	"github.com/syndtr/goleveldb/leveldb/util"
)

type kind struct {
	name   string
	writes int
	keys   int
	value  int // bytes of a value at most
	batch  int // writes in a batch
	buffer int // bytes of a write buffer; 0: goleveldb's 4 MiB
	block  int // bytes of a block
	bloom  bool
	whole  bool // compacted before the last hundredth
}

var kinds = []kind{
	{"goleveldb_log_alone", 3000, 1200, 60, 1, 0, 4096, false, false},
	{"goleveldb_defaults", 150000, 60000, 200, 20, 0, 4096, false, false},
	{"goleveldb_small", 60000, 20000, 100, 3, 1 << 17, 1024, true, false},
	{"goleveldb_compacted", 60000, 20000, 100, 10, 1 << 18, 4096, false, true},
}

func must(fault error) {
	if fault != nil {
		fmt.Fprintln(os.Stderr, fault)
		os.Exit(1)
	}
}

func options(it kind) *opt.Options {
	made := &opt.Options{WriteBuffer: it.buffer, BlockSize: it.block}
	if os.Getenv("PLAIN") != "" {
		made.Compression = opt.NoCompression
	}
	if it.bloom {
		made.Filter = filter.NewBloomFilter(10)
	}
	return made
}

func open(folder string, it kind) *leveldb.DB {
	database, fault := leveldb.OpenFile(folder, options(it))
	must(fault)
	return database
}

func makeFolder(folder string, it kind) {
	drawn := rand.New(rand.NewSource(4711))
	database := open(folder, it)
	isCompacted := false
	for done := 0; done < it.writes; {
		batch := new(leveldb.Batch)
		for i := 0; i < it.batch; i++ {
			key := []byte(fmt.Sprint(drawn.Intn(it.keys)))
			if drawn.Intn(8) == 0 {
				batch.Delete(key)
			} else {
				batch.Put(key, []byte(fmt.Sprint(done)+strings.Repeat("v", drawn.Intn(it.value))))
			}
			done++
		}
		must(database.Write(batch, nil))
		if it.whole && !isCompacted && done > it.writes/100*99 {
			must(database.CompactRange(util.Range{}))
			isCompacted = true
		}
	}
	must(database.Close())
}

func hex(bytes []byte) string {
	if len(bytes) == 0 {
		return "."
	}
	return fmt.Sprintf("%x", bytes)
}

func scan(folder string) {
	database := open(folder, kind{})
	out := bufio.NewWriter(os.Stdout)
	pairs := database.NewIterator(nil, nil)
	for pairs.Next() {
		fmt.Fprintf(out, "%s=%s\n", hex(pairs.Key()), hex(pairs.Value()))
	}
	must(pairs.Error())
	must(out.Flush())
}

func main() {
	words := append(os.Args[1:], "", "", "", "")
	switch words[0] {
	case "kinds":
		for _, it := range kinds {
			fmt.Println(it.name)
		}
		return
	case "make":
		for _, it := range kinds {
			if it.name == words[2] {
				makeFolder(words[1], it)
				return
			}
		}
	case "scan":
		scan(words[1])
		return
	case "put":
		database := open(words[1], kind{})
		must(database.Put([]byte(words[2]), []byte(words[3]), nil))
		must(database.Close())
		return
	case "open":
		must(open(words[1], kind{}).Close())
		return
	case "compact":
		database := open(words[1], kind{})
		must(database.CompactRange(util.Range{}))
		must(database.Close())
		return
	case "deep":
		small := options(kind{buffer: 1 << 12})
		small.CompactionTableSize, small.CompactionTotalSize, small.CompactionTotalSizeMultiplier = 1<<12, 1<<12, 1.5
		database, fault := leveldb.OpenFile(words[1], small)
		must(fault)
		for i := 0; i < 20000; i++ {
			must(database.Put([]byte(fmt.Sprintf("%06d", i*7919%20000)), []byte(strings.Repeat("v", 40)), nil))
		}
		must(database.CompactRange(util.Range{}))
		must(database.Close())
		return
	case "recover":
		still := options(kind{})
		still.CompactionL0Trigger = 1 << 20
		database, fault := leveldb.RecoverFile(words[1], still)
		must(fault)
		must(database.Close())
		return
	}
	fmt.Fprintln(os.Stderr, "by_goleveldb: see the head of by_goleveldb.go")
	os.Exit(2)
}
