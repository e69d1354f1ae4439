-- A store of the first version, with rows in each table.
CREATE TABLE meta (k TEXT PRIMARY KEY, v INTEGER NOT NULL) STRICT;
CREATE TABLE service (name TEXT PRIMARY KEY) STRICT;
CREATE TABLE instance (id INTEGER PRIMARY KEY, service TEXT NOT NULL REFERENCES service(name), name TEXT NOT NULL, rowtext TEXT NOT NULL, start_snap INTEGER, previous_snap INTEGER, UNIQUE(service, name)) STRICT;
CREATE TABLE grp (service TEXT NOT NULL, instance INTEGER NOT NULL, name TEXT NOT NULL, body BLOB NOT NULL, PRIMARY KEY(service, instance, name)) STRICT;
CREATE TABLE snap (id INTEGER PRIMARY KEY, instance INTEGER NOT NULL, body BLOB NOT NULL) STRICT;
CREATE TABLE restarter (name TEXT PRIMARY KEY, launch INTEGER NOT NULL) STRICT;
INSERT INTO meta (k, v) VALUES ('version', 1), ('revision', 12), ('next_instance', 4), ('next_snapshot', 3);
INSERT INTO service (name) VALUES ('svc:/site/bare'), ('svc:/site/old');
INSERT INTO instance (id, service, name, rowtext, start_snap, previous_snap) VALUES
  (1, 'svc:/site/old', 'default', 'svc:/system/svc/restarter:default 0 uninitialized - - - 0 0 0 - contract 0 0 0 0 0 0 1 - 0 0', 1, NULL),
  (3, 'svc:/site/old', 'spare', 'svc:/system/svc/restarter:default 0 uninitialized - - - 0 0 0 - contract 0 0 0 0 0 0 - - 0 0', NULL, NULL);
INSERT INTO grp (service, instance, name, body) VALUES
  ('svc:/site/old', 0, 'options', x'0000000100076f7074696f6e73000b6170706c69636174696f6e000002000473697a650100010000000000000004000474657874040002000000036f6c64000000056f6c646572'),
  ('svc:/site/old', 1, 'general', x'00000001000767656e6572616c00096672616d65776f726b0000010007656e61626c656400000101'),
  ('svc:/site/old', 1, 'start', x'000000010005737461727400066d6574686f64000001000465786563040001000000082f62696e2f6f6c64');
INSERT INTO snap (id, instance, body) VALUES
  (1, 1, x'0000000100076f7074696f6e73000b6170706c69636174696f6e000002000473697a650100010000000000000004000474657874040002000000036f6c64000000056f6c646572000000020005737461727400066d6574686f640000010004657865630400010000000a2f62696e2f6f6c646572000473746f7000066d6574686f64000001000465786563040001000000053a6b696c6c');
INSERT INTO restarter (name, launch) VALUES ('svc:/system/svc/restarter:default', 2);
