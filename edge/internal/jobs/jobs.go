// Package jobs is the table of what the proved program does, as its words, what it takes and what it gives. A job that it
// learns is one line here.
package jobs

// A Kind is what a job takes or gives.
type Kind int

// The kinds.
const (
	Nothing  Kind = iota
	Requests      // OTLP requests, in any form
	Batches       // batches of OTAP, always in a capture
	Statuses      // batch statuses, in a capture
	Lines         // text
)

// A Job is one of the program's jobs.
type Job struct {
	Name    string
	Signal  bool // whether a signal follows the name
	Takes   Kind
	Gives   Kind
	Short   string
	Long    string
	Example string
}

// All is the table, in the order of help.
func All() []Job {
	return []Job{
		{Name: "encode", Signal: true, Takes: Requests, Gives: Batches,
			Short: "Requests as batches, as an exporter of OTAP sends them",
			Long: `encode reads OTLP requests and writes the batches that an exporter of OTAP sends for them, one for each.
What isn't carried is listed on standard error; a request that can't be sent is refused by name and left out.`,
			Example: `  otap encode logs otlp.json -o batches.capture
  otap encode traces monday.bin tuesday.bin.zst -o batches.capture
  otap encode metrics --follow growing.json | otap replay metrics`},
		{Name: "decode", Signal: true, Takes: Batches, Gives: Requests,
			Short: "Batches as requests, as a receiver of OTAP reads them",
			Long: `decode reads batches and writes the OTLP request that each stands for.
A batch that is refused is named with its frame, stage and cause, and so is each frame after it until a reset.`,
			Example: `  otap decode logs batches.capture --to json | jq .
  otap decode traces batches.capture --to proto -o otlp.bin
  otap decode logs --streams joined.capture -o requests.capture`},
		{Name: "tidy", Signal: true, Takes: Requests, Gives: Requests,
			Short: "Requests in their one canonical form",
			Long: `tidy writes each request in its canonical form: fields in ascending number, shortest varints, no defaults.
What isn't carried is listed on standard error.`,
			Example: `  otap tidy logs otlp.json --to proto -o otlp.bin
  otap tidy traces otlp.bin --to json`},
		{Name: "list", Takes: Batches, Gives: Lines,
			Short: "What frames a capture of batches has",
			Long: `list prints a line for each frame: the batch id, and for each payload its type and the length of its record.
The types 10, 30 and 40 are the main tables of metrics, logs and traces.`,
			Example: `  otap list batches.capture`},
		{Name: "schema", Signal: true, Takes: Batches, Gives: Lines,
			Short: "The Arrow schemas in batches",
			Long:  `schema prints a line for each batch, each payload, and each field of the schema that a record begins with.`,
			Example: `  otap schema logs batches.capture
  otap schema traces batches.capture | grep dict`},
		{Name: "show", Signal: true, Takes: Batches, Gives: Lines,
			Short: "The rows in batches, as they are stored",
			Long: `show prints a line for each batch, each payload, and each row with its cells as they are stored: ids in their
coding, doubles as their 64 bits.`,
			Example: `  otap show logs batches.capture`},
		{Name: "status", Signal: true, Takes: Batches, Gives: Statuses,
			Short:   "The statuses that a receiver replies to batches",
			Long:    `status writes, as a capture, the batch status that a receiver sends back for each batch.`,
			Example: `  otap status logs batches.capture -o statuses.capture`},
		{Name: "replay", Signal: true, Takes: Batches, Gives: Lines,
			Short: "Whether a receiver accepts batches, and what they weigh",
			Long: `replay prints a line for each batch that a receiver accepts: how many spans, records or metrics it has, and
what its rows and its request weigh.`,
			Example: `  otap replay logs batches.capture`},
		{Name: "selfrun", Signal: true, Takes: Nothing, Gives: Batches,
			Short: "Batches of a load that the program makes itself",
			Long: `selfrun N writes the batches of N requests (1 to 1000) of 8,192 items that the program makes itself, and says
how many there were.`,
			Example: `  otap selfrun logs 10 | otap replay logs`},
	}
}

// Find is the job of a name.
func Find(name string) (Job, bool) {
	for _, job := range All() {
		if job.Name == name {
			return job, true
		}
	}
	return Job{}, false
}
