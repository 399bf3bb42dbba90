package main

import (
	"fmt"
	"strings"
	"time"

	"github.com/spf13/cobra"
	"github.com/spf13/pflag"

	"finavoluth/edge/internal/command"
	"finavoluth/edge/internal/live"
	"finavoluth/edge/internal/live/near"
	"finavoluth/edge/internal/live/pcap"
	"finavoluth/edge/internal/live/record"
	"finavoluth/edge/internal/signal"
)

const mebibyte = 1 << 20

// sharedFlags declares the flags that near, far and record have in common.
func sharedFlags(flags *pflag.FlagSet, o *live.Options, next string) {
	flags.StringVar(&o.Listen, "listen", "127.0.0.1:4317", "serve gRPC on `HOST:PORT`; port 0 takes a free one, which the log names")
	flags.BoolVar(&o.Insecure, "insecure", false, "listen beyond the loopback without TLS")
	flags.StringVar(&o.TLS.Cert, "tls-cert", "", "serve by TLS with the certificate in `FILE` (PEM)")
	flags.StringVar(&o.TLS.Key, "tls-key", "", "the certificate's key in `FILE` (PEM)")
	flags.StringVar(&o.TLS.ClientCA, "tls-client-ca", "", "take only clients with a certificate of a CA in `FILE` (PEM)")
	flags.StringVar(&o.To.Address, next, "", "the next hop, at `HOST:PORT`; by TLS but to the loopback")
	flags.BoolVar(&o.To.Insecure, "to-insecure", false, "connect to the next hop beyond the loopback without TLS")
	flags.StringVar(&o.To.CA, "to-ca", "", "trust the CAs in `FILE` (PEM) for the next hop, instead of the system's")
	flags.StringVar(&o.To.Cert, "to-cert", "", "show the next hop the certificate in `FILE` (PEM)")
	flags.StringVar(&o.To.Key, "to-key", "", "its key in `FILE` (PEM)")
	flags.StringVar(&o.To.Compression, "compression", "none", "of what is sent to the next hop: none, gzip or zstd")
	flags.IntVar(&o.MaxMessage, "max-message", 64*mebibyte, "refuse messages of more `BYTES`, also where they unpack to more")
	flags.Int64Var(&o.WindowBytes, "window-bytes", 128*mebibyte, "have at most so many `BYTES` of messages on their way; at least twice --max-message")
	flags.IntVar(&o.Connections, "max-connections", 256, "take at most `N` connections at once on each address")
	flags.IntVar(&o.Calls, "max-calls", 128, "take at most `N` calls at once on each connection")
	flags.DurationVar(&o.Grace, "grace", 10*time.Second, "at the end, wait at most so long for calls that run")
	flags.StringVar(&o.Metrics, "metrics", "", "serve Prometheus' metrics on `HOST:PORT`, at /metrics")
}

func nearCommand(env *command.Env) *cobra.Command {
	o := live.NearOptions{}
	cmd := &cobra.Command{
		Use:   "near --to HOST:PORT",
		Short: "Take OTLP from Collectors, and send it as OTAP to a far end",
		Long: `near serves OTLP over gRPC. It has the program encode each request, sends the batches over OTel-Arrow's streams to
--to, and acknowledges a request once its batch was. A request that isn't acknowledged when a stream or a child ends is
answered with Unavailable, and is the sender's to send again. With --resend the program keeps it when a stream ends, and
near sends it again on the next one, as long as its sender waits.`,
		Example:               `  otap near --to 127.0.0.1:4320`,
		Args:                  cobra.NoArgs,
		DisableFlagsInUseLine: true,
	}
	flags := cmd.Flags()
	sharedFlags(flags, &o.Options, "to")
	flags.StringSliceVar(&o.Signals, "signals", signal.Names(), "the signals that are taken")
	flags.IntVar(&o.Streams, "streams", 1, "have `N` streams for each signal, each with a child")
	flags.IntVar(&o.Window, "window", 64, "have at most `N` batches of a stream unanswered")
	flags.DurationVar(&o.Timeout, "timeout", 30*time.Second, "how long a request may take to be acknowledged")
	flags.DurationVar(&o.Lifetime, "max-stream-lifetime", 0, "replace a stream after so long; 0 never does")
	flags.BoolVar(&o.Resend, "resend", false, "send requests again when a stream ends; --window is at most 64 then")
	flags.IntVar(&o.MaxBatch, "max-batch", 64*mebibyte, "refuse a request whose batch has more `BYTES`: the far end's --max-message")
	cmd.RunE = func(cmd *cobra.Command, _ []string) error {
		if err := positive(map[string]int{"streams": o.Streams, "window": o.Window, "max-batch": o.MaxBatch}); err != nil {
			return err
		}
		if o.To.Address == "" {
			return command.Misuse("near wants --to HOST:PORT, the far end")
		}
		if o.Resend && o.Window > near.MostResent {
			return command.Misuse("--window %d: with --resend it is at most %d", o.Window, near.MostResent)
		}
		program, err := env.Program()
		if err != nil {
			return err
		}
		defer program.Close()
		o.Log = env.Stderr
		return served(live.Near(cmd.Context(), program, o))
	}
	return cmd
}

func farCommand(env *command.Env) *cobra.Command {
	o := live.FarOptions{}
	cmd := &cobra.Command{
		Use:   "far --to HOST:PORT",
		Short: "Take OTAP from Collectors or a near end, and send it as OTLP",
		Long: `far serves OTel-Arrow's streams over gRPC. It has the program decode each batch, sends the requests to --to as OTLP,
and answers a batch with OK once its request was acknowledged there. A batch that the program refuses gets its status,
and then its stream ends with Aborted, since only a new stream begins anew.`,
		Example:               `  otap far --listen 127.0.0.1:4320 --to 127.0.0.1:4319`,
		Args:                  cobra.NoArgs,
		DisableFlagsInUseLine: true,
	}
	flags := cmd.Flags()
	sharedFlags(flags, &o.Options, "to")
	flags.IntVar(&o.MaxStreams, "max-streams", 64, "take at most `N` streams at once, each with a child")
	flags.IntVar(&o.Window, "window", 64, "have at most `N` batches of a stream unanswered")
	flags.DurationVar(&o.Timeout, "timeout", 20*time.Second, "how long the next hop may take for a request")
	cmd.RunE = func(cmd *cobra.Command, _ []string) error {
		if err := positive(map[string]int{"max-streams": o.MaxStreams, "window": o.Window}); err != nil {
			return err
		}
		if o.To.Address == "" {
			return command.Misuse("far wants --to HOST:PORT, the backend")
		}
		program, err := env.Program()
		if err != nil {
			return err
		}
		defer program.Close()
		o.Log = env.Stderr
		return served(live.Far(cmd.Context(), program, o))
	}
	return cmd
}

func recordCommand(env *command.Env) *cobra.Command {
	o := live.RecordOptions{}
	cmd := &cobra.Command{
		Use:   "record --dir DIR",
		Short: "Keep what Collectors send as captures, and pass it on",
		Long: `record serves OTLP over gRPC and HTTP, and OTel-Arrow's streams, and writes what comes to captures in --dir: one for
the requests of each signal, and one for each OTel-Arrow stream. It passes all on to --forward, or answers by itself.
Headers are passed on and never written. Where the folder is full, calls get ResourceExhausted, and nothing is deleted.`,
		Example: `  otap record --dir captures
  otap record --dir captures --forward 127.0.0.1:4319`,
		Args:                  cobra.NoArgs,
		DisableFlagsInUseLine: true,
	}
	flags := cmd.Flags()
	sharedFlags(flags, &o.Options, "forward")
	flags.StringVar(&o.HTTP, "listen-http", "127.0.0.1:4318", "serve OTLP over HTTP on `HOST:PORT`; empty for not at all")
	flags.StringVar(&o.Dir, "dir", "", "the `FOLDER` of the captures; it is made where it isn't there")
	flags.Int64Var(&o.MaxBytes, "max-bytes", 1024*mebibyte, "have at most so many `BYTES` in the folder")
	flags.Int64Var(&o.Rotate, "rotate", 256*mebibyte, "begin a new capture where one would have more `BYTES`")
	flags.IntVar(&o.MaxStreams, "max-streams", 64, "take at most `N` OTel-Arrow streams at once")
	flags.DurationVar(&o.Timeout, "timeout", 20*time.Second, "how long the next hop may take for a request")
	cmd.RunE = func(cmd *cobra.Command, _ []string) error {
		if err := positive(map[string]int{"max-streams": o.MaxStreams}); err != nil {
			return err
		}
		if o.Dir == "" {
			return command.Misuse("record wants --dir FOLDER")
		}
		o.Log = env.Stderr
		return served(live.Record(cmd.Context(), o))
	}
	return cmd
}

func pcapCommand(env *command.Env) *cobra.Command {
	o := pcap.Options{}
	var dir string
	var maxBytes, rotate int64
	cmd := &cobra.Command{
		Use:   "pcap --port N --dir DIR TRACE",
		Short: "Make captures of a packet trace",
		Long: `pcap makes captures of what was sent to a port in a packet trace, as tcpdump writes it: OTLP over gRPC, and
OTel-Arrow's streams, as record does. The traffic has to be plain (no TLS), and the trace has to have the beginning of
each connection. It takes tshark. The status is 5 where a call isn't whole.`,
		Example: `  tcpdump -i lo -w trace.pcap tcp port 4317
  otap pcap --port 4317 --dir captures trace.pcap`,
		DisableFlagsInUseLine: true,
	}
	flags := cmd.Flags()
	flags.IntVar(&o.Port, "port", 4317, "the `PORT` that was served")
	flags.StringVar(&dir, "dir", "", "the `FOLDER` of the captures; it is made where it isn't there")
	flags.IntVar(&o.MaxMessage, "max-message", 64*mebibyte, "the most `BYTES` that a message may have, also where it is unpacked")
	flags.Int64Var(&maxBytes, "max-bytes", 1024*mebibyte, "have at most so many `BYTES` in the folder")
	flags.Int64Var(&rotate, "rotate", 256*mebibyte, "begin a new capture where one would have more `BYTES`")
	cmd.RunE = func(cmd *cobra.Command, args []string) error {
		if len(args) != 1 || dir == "" {
			return command.Misuse("pcap wants --dir FOLDER and one trace")
		}
		store, err := record.OpenStore(dir, maxBytes, rotate)
		if err != nil {
			return served(err)
		}
		o.Store, o.Trace, o.Stdin = store, args[0], env.Stdin
		report, err := pcap.Extract(cmd.Context(), o)
		if err != nil {
			return &command.Exit{Status: command.ReadFailed, Err: err}
		}
		return reportTrace(env, report)
	}
	return cmd
}

// reportTrace prints a line for each signal and form, and says which calls aren't whole.
func reportTrace(env *command.Env, report *pcap.Report) error {
	var text strings.Builder
	for _, s := range signal.Names() {
		for _, form := range []string{"otlp", "otap"} {
			if n := report.Messages[s+" "+form]; n > 0 {
				fmt.Fprintf(&text, "%s %s: messages %d\n", s, form, n)
			}
		}
	}
	if err := print(env, text.String()); err != nil {
		return err
	}
	for _, damage := range report.Damaged {
		env.Say("%s", damage)
	}
	if report.Unnamed > 0 {
		env.Say("%d calls began before the trace, and are left out", report.Unnamed)
	}
	if len(report.Damaged) > 0 {
		return &command.Exit{Status: command.Damaged}
	}
	return nil
}

// served is the Exit for a server that didn't start, or couldn't go on.
func served(err error) error {
	if err == nil {
		return nil
	}
	return &command.Exit{Status: command.Misused, Err: err}
}

// positive refuses a number below 1.
func positive(flags map[string]int) error {
	for name, value := range flags {
		if value < 1 {
			return command.Misuse("--%s %d: it is at least 1", name, value)
		}
	}
	return nil
}
