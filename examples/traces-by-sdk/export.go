package main

import (
	"context"
	"encoding/json"
	"fmt"
	"os"
	"strconv"
	"time"

	"go.opentelemetry.io/otel/attribute"
	"go.opentelemetry.io/otel/codes"
	sdk "go.opentelemetry.io/otel/sdk/trace"
)

type object map[string]interface{}

// An exporter writes the spans that the SDK hands to it: OTLP as JSON, a document on a line for each batch.
type exporter struct{ file *os.File }

func (e exporter) ExportSpans(_ context.Context, spans []sdk.ReadOnlySpan) error {
	if len(spans) == 0 {
		return nil
	}
	found := []object{}
	for _, span := range spans {
		found = append(found, objectOf(span))
	}
	first := spans[0]
	scope := object{"name": first.InstrumentationLibrary().Name}
	document := object{"resourceSpans": []object{{
		"resource":   object{"attributes": attributesOf(first.Resource().Attributes())},
		"scopeSpans": []object{{"scope": scope, "spans": found}},
	}}}
	return json.NewEncoder(e.file).Encode(document)
}

func (e exporter) Shutdown(context.Context) error { return nil }

func objectOf(span sdk.ReadOnlySpan) object {
	own := object{
		"traceId":                span.SpanContext().TraceID().String(),
		"spanId":                 span.SpanContext().SpanID().String(),
		"name":                   span.Name(),
		"kind":                   int(span.SpanKind()), // the numbers are the same
		"startTimeUnixNano":      nanoseconds(span.StartTime()),
		"endTimeUnixNano":        nanoseconds(span.EndTime()),
		"attributes":             attributesOf(span.Attributes()),
		"droppedAttributesCount": span.DroppedAttributes(),
		"droppedEventsCount":     span.DroppedEvents(),
		"droppedLinksCount":      span.DroppedLinks(),
		"status":                 object{"code": map[codes.Code]int{codes.Ok: 1, codes.Error: 2}[span.Status().Code]},
	}
	if span.Parent().SpanID().IsValid() {
		own["parentSpanId"] = span.Parent().SpanID().String()
	}
	events := []object{}
	for _, event := range span.Events() {
		events = append(events, object{
			"timeUnixNano":           nanoseconds(event.Time),
			"name":                   event.Name,
			"attributes":             attributesOf(event.Attributes),
			"droppedAttributesCount": event.DroppedAttributeCount,
		})
	}
	own["events"] = events
	return own
}

func nanoseconds(time time.Time) string { return strconv.FormatInt(time.UnixNano(), 10) }

func attributesOf(attributes []attribute.KeyValue) []object {
	found := []object{}
	for _, each := range attributes {
		value := object{"stringValue": each.Value.Emit()}
		switch each.Value.Type() {
		case attribute.BOOL:
			value = object{"boolValue": each.Value.AsBool()}
		case attribute.INT64:
			value = object{"intValue": fmt.Sprint(each.Value.AsInt64())}
		case attribute.FLOAT64:
			value = object{"doubleValue": each.Value.AsFloat64()}
		}
		found = append(found, object{"key": string(each.Key), "value": value})
	}
	return found
}
