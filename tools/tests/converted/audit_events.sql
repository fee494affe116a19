CREATE TABLE `audit_events` (
  `id` binary(16) NOT NULL,
  `tenant` int unsigned NOT NULL,
  `kind` enum('login','logout','export') CHARACTER SET ascii COLLATE ascii_bin NOT NULL,
  `ip` varbinary(16) DEFAULT NULL,
  `payload` json DEFAULT NULL,
  `score` double DEFAULT NULL,
  `at` timestamp(3) NOT NULL DEFAULT CURRENT_TIMESTAMP(3),
  `day` date GENERATED ALWAYS AS (cast(`at` as date)) STORED,
  PRIMARY KEY (`id`),
  KEY `tenant_at` (`tenant`,`at` DESC)
) ENGINE=InnoDB DEFAULT CHARSET=utf8mb4 COLLATE=utf8mb4_0900_ai_ci ROW_FORMAT=DYNAMIC;
INSERT INTO `audit_events` (`id`,`tenant`,`kind`,`ip`,`payload`,`score`,`at`) VALUES (0x00112233445566778899AABBCCDDEEFF,1,'login',0x7F000001,'{\"ua\": \"x\"}',0.5,'2024-01-01 00:00:00.000'),(0x10112233445566778899AABBCCDDEEFF,1,'export',NULL,NULL,1.25,'2024-01-01 00:00:01.000');
