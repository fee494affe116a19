CREATE TABLE places (
  id INT PRIMARY KEY,
  spot POINT NOT NULL,
  note TEXT,
  born DATE
);
INSERT INTO places VALUES (1, NULL, NULL, CURDATE()), (2, NULL, UUID(), '5 May');
